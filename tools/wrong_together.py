"""Tries wrong bodies of several functions in one check: for the gate (tools/kit.py) and for tools/try wrong.

What the prover says of a function stands on its body and on the contracts of what it calls, and on no other body. So
edits of bodies that do not call each other are tried in one check, of the functions alone that they change, from
nothing, and each gets its own verdict. Of two functions of which one calls the other, the caller gets none, so such two
are kept apart, as are two edits of one function. An edit that changes more than bodies is tried so too, but alone. What
is left without a verdict is for the caller: an edit that changes no body, one whose function is not found by its module,
its type and its name, one that the prover or the language cannot read, and one whose function is proved.

A function that is not proved may be so only because its proof names what the edit took away. That says little of its
contract: of such an edit the line says so, as that of `rt must-fail` does.
"""
import collections
import functools
import os
import re
from concurrent.futures import as_completed

from lanes import Threads

# The most edits of a check.
MOST = 12
FLAGS = ["--jobs", "1"]
SIGNATURE = re.compile(r"\s*(?:pub(?:\([^)]*\))? )?(?:const )?(?:unsafe )?fn (\w+)")
# Lines that belong to no body, though they may stand inside one's braces.
CLAUSE = re.compile(r"\s*(requires|ensures|ghost|pub |impl|fn |use |const |static |#)")
LITERAL = re.compile(r"""b?"(?:\\.|[^"\\])*"|b?'(?:\\.|[^'\\])'|//.*""")
VERDICT = re.compile(r"^fn (\S+): (.*)$", re.M)
# What is said of a function's proof files, with the line behind it, and such words of a name that is gone.
SAID = re.compile(r"^(?:\./)?proofs/(\S+)/\w+\.antt:\d+:\d+: error: (.*\n.*)", re.M)
GONE = re.compile(r"has no field|is not in scope|has no `|not admitted")
# A name that is called.
CALL = re.compile(r"\b(\w+)(?:::<[^>]*>)?\(")
# The head of an impl block behind its parameters: the trait, if there is one, the type, and the rest.
IMPL = re.compile(r" (?:(?:\w+::)*(\w+)(?:<[^{]*?>)? for )?(?:\w+::)*(\w+)(.*)")
# What a check says where a path fits several functions, or none.
SEVERAL = re.compile(r"several functions are named `(\S+)`: help: write one of (.*)")
NONE = re.compile(r"has no function `(\S+)`")
# Verdicts by which the function's own statement was not proved.
REFUSED = re.compile(r"not proved$|no proof: expected answers")
# Names that so many functions have that a call says nothing of which is called.
COMMON = {"new", "fmt", "eq", "get", "next", "from", "drop", "copy", "len", "push", "iter", "clone"}


def text_of(path):
    with open(path, encoding="utf-8") as it:
        return it.read()


@functools.lru_cache(maxsize=4096)
def functions_of(text):
    """The functions of a source that have a body: its first line, from 0, its last, its name, and the line in which the
    body begins: with the brace that stands alone in its line, or ends that of the signature."""
    found, open_braces, begun = [], [], None
    for number, line in enumerate(text.split("\n")):
        if "{" not in line and "}" not in line and "fn " not in line:
            continue
        code = LITERAL.sub("", line).rstrip()
        named = SIGNATURE.match(code)
        if named:
            begun = named[1], number
        is_body = begun and code.endswith("{") and (code.strip() == "{" or named or code.lstrip().startswith(")"))
        for at, sign in enumerate(code):
            if sign == "{":
                opens = is_body and at == len(code) - 1
                open_braces.append((*begun, number) if opens else None)
                begun = None if opens else begun
            elif sign == "}" and open_braces:
                ended = open_braces.pop()
                if ended:
                    name, first, body = ended
                    found.append((first, number, name, body))
    return found


def module_of(path):
    """The module of a source, as the path of a function in it begins behind the crate's name."""
    words = path[len("src/"):-len(".rt")].removesuffix("/mod").split("/")
    return "" if words in (["lib"], ["main"]) else "::".join(words) + "::"


def closed(text):
    """Where the bracket ends with which a text begins."""
    depth = 0
    for at, sign in enumerate(text.replace("->", "  ")):
        depth += {"<": 1, ">": -1}.get(sign, 0)
        if not depth:
            return at + 1
    return len(text)


def sources_of(folder):
    """The sources of a crate, by their paths in it."""
    for at, _, names in os.walk(os.path.join(folder, "src")):
        for name in names:
            path = os.path.join(at, name)
            yield os.path.relpath(path, folder), text_of(path)


def types_of(folder):
    """The module in which a crate declares a type of a name, where there is one such type."""
    found = collections.defaultdict(set)
    for path, text in sources_of(folder):
        for name in re.findall(r"^(?:pub(?:\([^)]*\))? )?(?:struct|enum) (\w+)", text, re.M):
            found[name].add(module_of(path))
    return {name: modules.pop() for name, modules in found.items() if len(modules) == 1}


def tuple_of(found):
    """A tuple as paths have it."""
    return f"tuple{found[1].count(',') + 1} {found[1]}"


def place_of(path, lines, number, types):
    """The module and the type by which the path of the function goes that begins in this line of a source. The type of an
    impl block has its arguments, where they are more than the block's own parameters, or its trait; else the module is the
    type's own. Where the function stands in no block, there is no type."""
    module = module_of(path)
    for at in range(number, -1, -1):
        if lines[at].startswith("}"):
            break
        if lines[at].startswith("impl"):
            head = " ".join(lines[at:number + 1]).removeprefix("impl")
            most = closed(head) if head.startswith("<") else 0
            params = re.findall(r"(?:^|, )(?:const )?(\w+)", head[1:most])
            found = IMPL.match(head[most:])
            trait, of, rest = found.groups() if found else (None, "", "")
            given = re.sub(r"'\w+", "", rest[1:closed(rest) - 1]) if rest.startswith("<") else ""
            if trait:
                return module, of + trait
            if set(re.split("[ ,]+", given)) <= {*params, ""}:
                return types.get(of, module), of
            given = given.replace("()", "unit")
            while "(" in given:
                given = re.sub(r"\(([^()]*)\)", tuple_of, given)
            return module, "+".join([of, *re.findall(r"\w+", given)])
    return module, ""


def changed_by(edit, folder, types=None):
    """The functions whose bodies an edit changes, each by its module, its type and its name, and whether it changes
    bodies alone. `types` is what `types_of` gives of the crate, where that is known."""
    path, functions, is_bodies, types = None, set(), True, types or types_of(folder)
    for line in text_of(edit).split("\n"):
        if line.startswith("file: "):
            path = line[len("file: "):].strip()
        elif line.startswith("old: "):
            old, text = line[len("old: "):], text_of(os.path.join(folder, path))
            at = text[: text.find(old)].count("\n")
            inside = [it for it in functions_of(text) if it[3] < at <= it[1]] if path.startswith("src/") else []
            if text.count(old) != 1 or not inside or CLAUSE.match(old):
                is_bodies = False
                continue
            first, _, name, _ = max(inside)
            functions.add((*place_of(path, text.split("\n"), first, types), name))
    return functions, is_bodies


def words_of(function):
    """The path of a function below its crate."""
    module, owner, name = function
    return f"{module}{owner}::{name}" if owner else module + name


def fits(path, function):
    """Whether a path of a check is that of this function."""
    module, owner, name = function
    words = path.split("::", 1)[-1].removeprefix(module).split("::")
    if not path.split("::", 1)[-1].startswith(module) or words[-1] != name:
        return False
    return len(words) == 2 and f"{words[0]}+".startswith(f"{owner}+") if owner else len(words) == 1


def name_of(path):
    return path.rsplit("::", 1)[-1]


def reached_in(folder):
    """For each function name of a crate, the names that its body calls, and what those call, and so on."""
    bodies = collections.defaultdict(str)
    for _, text in sources_of(folder):
        lines = text.split("\n")
        for first, last, function, _ in functions_of(text):
            bodies[function] += "\n".join(lines[first + 1:last + 1])
    calls = {it: set(CALL.findall(body)) & bodies.keys() - COMMON - {it} for it, body in bodies.items()}

    def reached(name):
        found, left = set(), [name]
        while left:
            new = calls[left.pop()] - found
            found |= new
            left += new
        return found

    return {it: reached(it) for it in calls}


def batches_of(changes, alone, reached):
    """Edits by what they change, in batches: of no two of a batch does one change what the other changes or calls. Those
    that change more than bodies are alone."""
    names = {edit: {name for _, _, name in functions} for edit, functions in changes.items()}

    def calls(one, other):
        return any(reached.get(it, set()) & other for it in one)

    def meet(one, other):
        if {one, other} & alone or names[one] & names[other]:
            return True
        return calls(names[one], names[other]) or calls(names[other], names[one])

    batches = []
    for edit in changes:
        for batch in batches:
            if len(batch) < MOST and not any(meet(edit, other) for other in batch):
                batch.append(edit)
                break
        else:
            batches.append([edit])
    return batches


def check_of(checked, crate, texts, functions):
    """A check of these functions with these texts. Where a path fits none of the crate's functions, its last word is asked
    for, and where that fits several, the one of the same module and type. Nothing where a function is not found so."""
    paths = {it: words_of(it) for it in functions}
    for _ in range(2 * len(paths) + 1):
        only = [word for it in sorted(paths.values()) for word in ("--only", it)]
        ran = checked(crate, texts, FLAGS + only, None)
        none, several = NONE.search(ran.stdout), SEVERAL.search(ran.stdout)
        if ran.returncode != 2 or not (none or several):
            return ran
        for it, path in paths.items():
            if none and path == none[1]:
                paths[it] = name_of(path)
            elif several and path == several[1]:
                found = [path for path in re.findall(r"`(\S+?)`", several[2]) if fits(path, it)]
                if len(found) != 1:
                    return None
                paths[it] = found[0].split("::", 1)[1]
    return None


def tried_in(rt, crate, batch, changes, alone, checked):
    """What one check says of a batch: the edits that it refused, and of each whether only for names that are gone."""
    texts, _ = rt.edited("\n".join(text_of(it) for it in batch), crate.folder)
    ran = check_of(checked, crate, texts, set().union(*(changes[it] for it in batch))) if texts else None
    if not ran or ran.returncode != 1 or not ran.stdout.rstrip().split("\n")[-1].startswith("only="):
        return {}
    if rt.rtlib.STALE.search(ran.stdout) or any(rt.unread(it, texts) for it in ran.stdout.split("\n")):
        return {}
    said = collections.defaultdict(list)
    for at, words in SAID.findall(ran.stdout):
        said[at.replace("/", "::")].append(bool(GONE.search(words)))
    verdicts = dict(VERDICT.findall(ran.stdout))
    tried = {}
    for edit in batch:
        found = [[path for path in verdicts if fits(path, it)] for it in changes[edit]]
        paths = verdicts if edit in alone else [paths[0] for paths in found if len(paths) == 1]
        refused = [it for it in paths if REFUSED.match(verdicts[it])]
        if len(paths) >= len(found) and refused:
            tried[edit] = all(all(said.get(it.split("::", 1)[1], [False])) for it in refused)
    return tried


def batches_for(crate, edits):
    """The batches that a check each tries, the functions that each edit changes, and the edits that change more than
    bodies. Those that change no body are left out."""
    found = {it: changed_by(it, crate.folder) for it in edits}
    changes = {it: functions for it, (functions, _) in found.items() if functions}
    alone = {it for it, (_, is_bodies) in found.items() if not is_bodies}
    return batches_of(changes, alone, reached_in(crate.folder)), changes, alone


def line_of(crate, edit, number, is_gone):
    """What is said of an edit that a check of so many refused."""
    why = " (only because a proof names what the edit took away: change a value and keep the names)" if is_gone else ""
    return f"must-fail {crate.name}/{os.path.basename(edit)}: refused, as it must be, of {number} at once{why}"


def together(rt, crate, edits, checked=None, lanes=1):
    """Tries edits of a crate, several in one check. Gives, as they come, each edit that was refused, whether only for
    names that are gone, and the line that says so. Any other edit has no verdict. `checked` makes a check, as `rt.checked`
    does."""
    batches, changes, alone = batches_for(crate, edits)
    with Threads(lanes) as pool:
        tried = {pool.submit(tried_in, rt, crate, it, changes, alone, checked or rt.checked): it for it in batches}
        for done in as_completed(tried):
            for edit, is_gone in done.result().items():
                yield edit, is_gone, line_of(crate, edit, len(tried[done]), is_gone)
