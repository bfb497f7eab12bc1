"""Sums of the contracts under which wrong bodies are refused, for tools/try wrong.

The sum of an edit is that of the contracts of the functions whose bodies it changes, and of all that these contracts
name, in the edit's crate and in those below it:

- each module of `specs` that a `ghost use` imports of which the contract has a name, and those that it imports;
- each type and trait that a signature names, or a module imports: its declaration and what its `Model` says, and the
  types that these name in turn.

Where a text stands and who sees it make no difference to its sum, nor do comments, layout, attributes, bodies and drops
without a clause. So an edit that moves to another crate with its function keeps its sum. What the contracts of other
functions say is not in it, though a body calls them.
"""
import collections
import functools
import hashlib
import os
import re

from wrong_together import changed_by, functions_of, module_of, place_of, sources_of, text_of, types_of

# What is imported of a crate's definitions, and what an item of a source or a module imports.
NAMED = re.compile(r"Rattle\.(\w+)\.specs\.([\w.]*\w)")
GHOST_USE = re.compile(r"^\s*ghost use (Rattle\.[\w.]*\w)(?:\.\{(.*?)\})?(?: as (\S+?))?;", re.M | re.S)
USE = re.compile(r"^\s*(?:pub(?:\([^)]*\))? )?use (\w+)::([^;]*);", re.M)
# The items of a source that stand in no other, and such as declare a type or say what it means.
ITEM = re.compile(r"^(?![\s})]).*?(?=^(?![\s})])|\Z)", re.M | re.S)
DECLARES = re.compile(r"(?:pub(?:\([^)]*\))? )?(?:struct|enum|type|trait) (\w+)|impl\b[^{]*\bModel for (?:\w+::)*(\w+)")
CONSTANT = re.compile(r"(?:pub(?:\([^)]*\))? )?(?:const|static) (\w+)")
# A drop without a clause, as `laid_out` gives it.
DROP = re.compile(r"impl\b(?:(?!\bimpl\b)[^{}])* Drop for [^{}]*\{ fn drop \( self \) \{ \} \}")
TYPE = re.compile(r"(?:\b([a-z]\w*)::(?:[a-z]\w*::)*)?\b([A-Z]\w*)")


def sum_of(text):
    return hashlib.sha256(text.encode()).hexdigest()


def laid_out(text):
    """A text of a source without comments, attributes and imports for code, however it is laid out, whoever sees it."""
    text = "\n".join(re.sub(r"(^|\s)//.*", "", it) for it in text.split("\n"))
    for left_out in (r"^\s*#!?\[.*\]$", r"\bpub(\([^)]*\))? ", r"^\s*use [^;]*;", r"^mod \w+;", r",(?=\s*[}\])])"):
        text = re.sub(left_out, "", text, flags=re.M)
    text = " ".join(re.sub(r"([{}(),;])", r" \1 ", text).split())
    return " ".join(DROP.sub("", text).split())


def lines_of(text):
    """A text of definitions without comments, whoever sees them."""
    lines = [it.rstrip() for it in text.split("\n") if it.strip() and not it.lstrip().startswith("--")]
    return re.sub(r"\bpub ", "", "\n".join(lines))


def without_bodies(text):
    lines = text.split("\n")
    for _, last, _, body in functions_of(text):
        lines[body + 1:last] = [""] * (last - body - 1)
    return "\n".join(lines)


class Source:
    """A source of a crate: its text without bodies, what it imports for code, and its items that declare something."""

    def __init__(self, crate, path, text):
        self.crate, self.path, self.text = crate, path, text
        self.promised = without_bodies(text)
        self.uses = {}
        for of, names in USE.findall(re.sub(r"//.*", "", text)):
            for name, alias in re.findall(r"(\w+)(?: as (\w+))?", names):
                self.uses[alias or name] = of, name
        self.declared, self.constants = collections.defaultdict(str), ""
        bare = "\n".join(re.sub(r"(^|\s)//.*|^#!?\[.*\]$", "", it) for it in self.promised.split("\n"))
        for item in ITEM.findall(bare):
            found = DECLARES.match(item)
            if found:
                self.declared[found[1] or found[2]] += item
            elif CONSTANT.match(item):
                self.constants += item


class Repository:
    """What the crates of a repository declare and define."""

    def __init__(self, top):
        self.top = top
        self.crates = set(os.listdir(os.path.join(top, "crates")))

    def folder(self, crate):
        return os.path.join(self.top, "crates", crate)

    @functools.cache
    def sources(self, crate):
        return {path: Source(crate, path, text) for path, text in sorted(sources_of(self.folder(crate)))}

    @functools.cache
    def types(self, crate):
        return types_of(self.folder(crate))

    @functools.cache
    def declaring(self, crate, name):
        """The sources of a crate that declare a type of this name."""
        return [it for it in self.sources(crate).values() if name in it.declared]

    def found(self, crate, name, depth=4):
        """The sources that declare a type which a crate has under this name: its own, or one that it passes on."""
        here = self.declaring(crate, name)
        if here or not depth:
            return [(it, name) for it in here]
        roots = [it for it in self.sources(crate).values() if it.path.endswith(("lib.rt", "main.rt"))]
        passed = [it.uses[name] for it in roots if name in it.uses]
        return [found for of, other in passed if of in self.crates for found in self.found(of, other, depth - 1)]

    def module(self, crate, path):
        """The file of a module of definitions, of the longest beginning of a path that is one."""
        words = path.split(".")
        for number in range(len(words), 0, -1):
            file = os.path.join(self.folder(crate), "specs", *words[:number]) + ".antt"
            if os.path.isfile(file):
                return file
        return None

    def nodes_of_path(self, crate, path):
        """What an import of a crate's definitions names: a module, a type, or the constants of a source."""
        if crate not in self.crates:
            return []
        words = path.split(".")
        if words[0] != "declared":
            file = self.module(crate, path)
            return [("module", file)] if file else []
        number = next((it for it, word in enumerate(words) if word[:1].isupper()), len(words))
        if words[number:number + 1] == ["TheConstants"]:
            module = "::".join([*words[1:number], ""])
            return [("constants", it) for it in self.sources(crate).values() if module_of(it.path) == module]
        return [("type", *it) for it in self.found(crate, words[number])] if number < len(words) else []

    @functools.cache
    def raw(self, node):
        """The text of a node, in which no import says of which crate and module it is."""
        if node[0] == "module":
            return NAMED.sub("specs", lines_of(text_of(node[1])))
        text = node[1].constants if node[0] == "constants" else node[1].declared[node[2]]
        return NAMED.sub("specs", laid_out(text))

    def seen_in(self, text, source):
        """The types that a text of a source names."""
        found = []
        for of, name in set(TYPE.findall(text)):
            crate, known = source.uses.get(name, (of, name))
            # (the first word of a path is a crate, or else a module of this one)
            found += [("type", *it) for it in self.found(crate if crate in self.crates else source.crate, known)]
        return found

    def named_in(self, text):
        return [node for crate, path in NAMED.findall(text) for node in self.nodes_of_path(crate, path)]

    @functools.cache
    def names(self, node):
        """The nodes that a node names."""
        if node[0] == "module":
            return self.named_in(text_of(node[1]))
        text = node[1].constants if node[0] == "constants" else node[1].declared[node[2]]
        return self.named_in(text) + self.imported_by(text, node[1])[1] + self.seen_in(laid_out(text), node[1])

    def imported_by(self, text, source):
        """The imports of a source of which a text has a name: each such name, as it is given and by the text of what it is
        of, and what they name."""
        code, told, found = re.sub(r"^\s*ghost use [^;]*;", "", text, flags=re.M), [], []
        for path, names, alias in GHOST_USE.findall(source.text):
            given = [f"{path} as {alias}"] if alias else re.split(r",\s*", names.strip(" \n,")) if names else [path]
            for it in given:
                parts = [part for part in it.split(" as ")[-1].rsplit(".", 1)[-1].strip().split("◌") if part]
                if parts and all(part in code for part in parts):
                    told.append(f"{self.told(path)} {self.told(it)}")
                    found += self.named_in(path)
        return told, found

    def sum(self, texts, nodes):
        """The sum of texts and of all that these nodes reach."""
        reached = set().union(*(self.reached(it) for it in set(nodes)))
        return sum_of("\n".join([*sorted(texts), *sorted({self.own_sum(it) for it in reached})]))

    @functools.cache
    def reached(self, node):
        """A node, and those that it names, and so on."""
        left, found = [node], {node}
        while left:
            new = set(self.names(left.pop())) - found
            found |= new
            left += new
        return frozenset(found)

    @functools.cache
    def own_sum(self, node):
        """The sum of a node's text, in which what it imports of crates stands by its text."""
        if node[0] != "module":
            return sum_of(self.raw(node))
        return sum_of(self.told(text_of(node[1])))

    def told(self, text):
        """A text of definitions, in which each import of a crate's definitions stands by the text of what it names."""

        def by_text(named):
            nodes = self.nodes_of_path(named[1], named[2])
            return sum_of("\n".join(sorted(map(self.raw, nodes)))) if nodes else named[0]

        return NAMED.sub(by_text, lines_of(text))

    def of_function(self, source, first, body):
        """What the contract of a function says, and what it names: its lines from the first to the one in which its body
        begins, and the head of its impl block, or all of that block where it is a trait's."""
        lines = source.promised.split("\n")
        text = "\n".join(lines[first:body + 1])
        at = next((it for it in range(first, -1, -1) if lines[it].startswith(("}", "impl"))), 0)
        if lines[at].startswith("impl"):
            head = next((it for it in range(at, first) if lines[it].rstrip().endswith("{")), at)
            block = "\n".join(lines[at:head + 1])
            end = next((it for it in range(first, len(lines)) if lines[it].startswith("}")), len(lines))
            text = "\n".join(lines[at:end + 1]) if " for " in block else f"{block}\n{text}"
        told, named = self.imported_by(text, source)
        return "\n".join([laid_out(text), *sorted(told)]), named + self.seen_in(laid_out(text), source)

    def of_edit(self, crate, edit):
        """The sum of the contracts that an edit of a crate must be refused under. Where it changes more than bodies, it is
        that of all contracts of the sources that it changes."""
        paths = sorted(set(re.findall(r"^file: *(\S+)", text_of(edit), re.M)))
        if not all(os.path.isfile(os.path.join(self.folder(crate), it)) for it in paths):
            return "of-no-file"
        functions, is_bodies = changed_by(edit, self.folder(crate), self.types(crate))
        texts, nodes, left = [], [], set(functions)
        for path in paths:
            source = self.sources(crate).get(path)
            if not source:
                texts.append(self.told(text_of(os.path.join(self.folder(crate), path))))
                continue
            lines = source.text.split("\n")
            for first, _, name, body in functions_of(source.text):
                function = (*place_of(path, lines, first, self.types(crate)), name)
                if not is_bodies or function in functions:
                    text, named = self.of_function(source, first, body)
                    texts.append(text)
                    nodes += named
                    left.discard(function)
            if not is_bodies:
                texts.append(laid_out(source.promised))
        if left or not texts:
            raise ValueError(f"{edit}: no contract is found of what it changes")
        return self.sum(texts, nodes)
