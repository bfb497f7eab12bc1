# What ./ocpi_nodes and ./check share: which files the program is made from, whether a program that stands was made from
# these files as they are now, and how it is built without proofs. The script that reads this file has set `top`, the
# repository's folder, and has a function `say`, and a function `fail` that says what is wrong and ends it.

crate=$top/crates/ocpi_nodes
# The program that was proved, and the same built without proofs. (Both have the name that their help shows.)
program=$crate/out/ocpi_nodes
quick=$crate/out/quick/ocpi_nodes

# Beside each of the two stand its listing and its sums, written once it stands, and removed before it is made anew.
# The listing (each file's name, inode, size and times) is compared at each start, in a few milliseconds. Where it
# differs, as in a copy of the repository or after a checkout that comes back, the sums (the kit's identity and each
# file's SHA-256) decide. Where the command `rt` is not on the PATH, the kit is taken to be the one that built the
# program: then what the listing and the sums say of it is taken as it was written.

# Sets `crates` to the crates that the program stands on by crates.txt, lowest first, and the program's own last.
find_crates() {
    local -A below=()
    local line words
    while IFS= read -r line || [[ $line ]]; do
        line=${line%%#*}
        [[ $line == *:* ]] || continue
        words=(${line%%:*})
        below[${words[0]}]=${line#*:}
    done < "$top/crates.txt"
    crates=()
    add_crate ocpi_nodes
}

# Adds a crate of the repository to `crates`, after those that it uses. A library of the kit is passed over.
add_crate() {
    local library
    [[ ${below[$1]+listed} && " ${crates[*]} " != *" $1 "* ]] || return 0
    for library in ${below[$1]}; do
        add_crate "$library"
    done
    crates+=("$1")
}

# Sets `sources` to the files and folders, named from the top, that the program is made from.
find_sources() {
    local name
    find_crates
    sources=(crates.txt HANDLES)
    for name in "${crates[@]}"; do
        sources+=("crates/$name/src" "crates/$name/specs" "crates/$name/proofs")
    done
}

# Writes a line for each source, and then one for the program $1: its name, inode, size, and times of the last writing
# and of the last change of any kind. (The second time tells a writing that sets the first one back.) The first line is
# that of the command `rt`, which stands for the kit. It ends the process, so it is called in one of its own.
list_files() {
    local kit=() line
    if hash rt 2> /dev/null; then
        kit=("${BASH_CMDS[rt]}")
    elif [[ -f $1.listing ]]; then
        IFS= read -r line < "$1.listing" && printf '%s\n' "$line"
    fi
    cd "$top" && exec find -H "${kit[@]}" "${sources[@]}" "${1#"$top/"}" ! -type d \
        -printf '%p %i %s %T@ %C@\n' 2> /dev/null
}

# Writes the same without a program.
list_sources() {
    list_files "$program" | grep -v '^crates/ocpi_nodes/out/'
}

# Writes the identity of the kit that builds the program $1, or that built it.
name_kit() {
    if hash rt 2> /dev/null; then
        rt version 2> /dev/null
    else
        grep -vE '^[0-9a-f]{64}  ' "$1.sums" 2> /dev/null
    fi
}

# Writes the kit's identity and the SHA-256 of each source and of the program $1, in the order of their names.
sum_files() {
    name_kit "$1" && cd "$top" && find "${sources[@]}" "${1#"$top/"}" -type f -print0 2> /dev/null |
        LC_ALL=C sort -z | xargs -0 sha256sum
}

# Sees that the command `rt` is there, before the program is built.
find_kit() {
    hash rt 2> /dev/null ||
        fail "no program stands that was built from today's sources, and the command rt, which builds it, is not on the PATH"
}

# Whether the file $1 is there and holds the text $2. (`[` compares long texts faster than `[[`.)
holds() {
    local text
    [[ -f $1 && $2 ]] && text=$(< "$1") && [ "$text" = "$2" ]
}

# Whether the program $1 was made from the sources as they are, by the listing alone.
is_listed() {
    [[ -x $1 ]] && holds "$1.listing" "$(list_files "$1")"
}

# Whether the program $1 was made from the sources as they are, by the sums. Then the listing is written anew, where it
# can be written.
is_summed() {
    local now
    [[ -x $1 && -f $1.sums ]] || return
    now=$(list_files "$1")
    holds "$1.sums" "$(sum_files "$1")" || return
    keep "$1.listing" "$now" 2> /dev/null || :
}

# Writes the text $2 to the file $1, whole or not at all.
keep() {
    printf '%s\n' "$2" > "$1.new" && mv -f "$1.new" "$1"
}

# Before the program $1 is made: forgets what stands.
forget_program() {
    rm -f "$1.listing" "$1.sums"
}

# After the program $1 was made from sources that were listed as $2: writes its listing and its sums. Fails where a
# source has changed meanwhile, since nothing then tells which text was built.
remember_program() {
    local now_sums now
    now_sums=$(sum_files "$1")
    now=$(list_files "$1")
    [[ -x $1 && $(list_sources) == "$2" ]] || return
    keep "$1.sums" "$now_sums" && keep "$1.listing" "$now"
}

# Builds the program without proofs, from sources that stay as they are meanwhile.
build_quick() {
    local before started=$SECONDS
    find_kit
    mkdir -p "${quick%/*}" || fail "cannot write to $crate"
    for _ in 1 2 3; do
        find_sources
        before=$(list_sources)
        forget_program "$quick"
        say "building the program without proofs: ${#crates[@]} crates and what they use of the kit"
        "$top/tools/build_unproved" --news "${0##*/}" "$crate" "$quick" < /dev/null ||
            fail "the build failed after $((SECONDS - started)) s, and nothing was run"
        remember_program "$quick" "$before" && say "built after $((SECONDS - started)) s" && return
        say "a source changed during the build: once more"
    done
    fail "the sources changed during each of three builds, and nothing was run"
}

# Waits until no other of the two scripts builds the program of this repository. The lock ends with this process and
# those that it started. (`rt` locks the folders in crates/, and not that folder itself.)
wait_for_turn() {
    exec 9< "$top/crates"
    flock -n 9 && return
    say "another process builds the program: waiting for it"
    flock 9
}
