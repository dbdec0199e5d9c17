#!/bin/sh
# Counts the lines of definitions that a reader must believe, crate by crate, without blanks, comments and imports:
# those that the contracts of public calls reach, and the views of public types, each name followed through its `use`
# line to where it is defined. What no contract reaches of files that say that they serve the proofs is counted apart;
# where a file says that it serves them alone and a contract reaches it, it ends with 1.
#   bench/believed.sh       the table as text
#   bench/believed.sh -m    as markdown, for docs/claims.md
#   bench/believed.sh -u    the definitions that no contract reaches and whose file does not say so
#   bench/believed.sh -r    the table as text, of what the contract of `run` alone reaches
set -eu
cd "$(dirname "$0")/.."
crates=$(sed -n 's/^\([a-z][a-z0-9_]*\)\( staticlib\)*:.*/\1/p' crates.txt)
# shellcheck disable=SC2046,SC2086
LC_ALL=C awk -v how="${1:-}" -v order="$crates" '
function module_of(path) {
    sub(/^crates\//, "Rattle.", path)
    sub(/\.antt$/, "", path)
    gsub(/\//, ".", path)
    return path
}

# The names that a use line brings into a file, also under another name, and the names of whole modules.
function import(place, line,    path, list, names, count, i, pair) {
    sub(/^ *(ghost |pub )?use /, "", line)
    sub(/;? *$/, "", line)
    if (line !~ /^Rattle\.[a-z_0-9]+\.specs\./) return
    if (line ~ / as [^ }]*$/ && line !~ /\{/) {
        split(line, pair, " as ")
        whole[place, pair[2]] = pair[1]
        return
    }
    path = line
    sub(/\.\{.*/, "", path)
    list = line
    sub(/^[^{]*\{/, "", list)
    sub(/\}.*/, "", list)
    count = split(list, names, /, */)
    for (i = 1; i <= count; i++) {
        if (split(names[i], pair, " as ") == 2) brought[place, pair[2]] = path SUBSEP pair[1]
        else brought[place, names[i]] = path SUBSEP names[i]
    }
}

# The definition of a name in a module, or where that has it from, or in the type of that name in the module above.
function definition(module, name,    above, last, from) {
    if ((module, name) in defined) return defined[module, name]
    if ((module, name) in part) return part[module, name]
    if ((module, name) in brought) {
        split(brought[module, name], from, SUBSEP)
        return definition(from[1], from[2])
    }
    above = module
    sub(/\.[^.]*$/, "", above)
    last = substr(module, length(above) + 2)
    if ((above, last) in defined) return defined[above, last]
    return 0
}

# Reaches what the words of a text name in a file.
function reach(place, text,    words, count, i, at, first, rest, dot) {
    gsub(/[^A-Za-z0-9_.\047\200-\377-]+/, " ", text)
    count = split(text, words, " ")
    for (i = 1; i <= count; i++) {
        first = words[i]
        rest = ""
        dot = index(first, ".")
        if (dot) {
            rest = substr(first, dot + 1)
            first = substr(first, 1, dot - 1)
            sub(/\..*/, "", rest)
        }
        if ((place, first) in defined) at = defined[place, first]
        else if ((place, first) in brought) {
            split(brought[place, first], found, SUBSEP)
            at = definition(found[1], found[2])
        } else if (rest != "" && (place, first) in whole) at = definition(whole[place, first], rest)
        else if ((place, first) in part) at = part[place, first]
        else at = 0
        if (at && !(at in reached)) {
            reached[at]
            queue[++queued] = at
        }
    }
}

function begin(name) {
    block = ++blocks
    place_of[block] = place
    crate_of[block] = crate
    file_of[block] = FILENAME
    name_of[block] = name
    if (frame) {
        text_of[block] = ""
        frame_of[block] = frame
    }
}

# A line of a file of definitions.
function definition_line(line,    bare, words, count, i, indent, start) {
    if (line ~ /^-- These definitions serve the proofs/) marked[FILENAME]
    if (line ~ /^-- These definitions serve the proofs alone/) alone[FILENAME]
    sub(/(^|[ \t])--.*/, "", line)
    if (line ~ /^[ \t]*$/) return
    if (line ~ /^ *(pub )?use [A-Za-z]+\./) { import(place, line); return }
    if (line ~ /^(pub )?mod /) return
    match(line, /^ */)
    indent = RLENGTH
    bare = substr(line, indent + 1)
    if (!indent) frame = 0
    start = bare ~ /^(abbrev|unfoldable|pub|data|record|mutual|module) / || bare ~ /^(abbrev )?mutual$/ || bare ~ /^[^ (]+ : /
    if (start && (!indent || (frame && indent == 2))) {
        begin("")
        if (bare ~ /^module /) frame = block
    }
    text_of[block] = text_of[block] " " line
    lines_of[block]++
    sub(/ :( .*)?$/, "", bare)
    sub(/ where$/, "", bare)
    is_definition = start
    while (bare ~ /^(abbrev|unfoldable|pub|data|record) /) sub(/^[a-z]+ /, "", bare)
    if (bare ~ /^(abbrev )?mutual$/ || bare ~ /^module /) return
    if (line !~ / : | :$| where$/ && line !~ /(data|record) /) return
    count = split(bare, words, " ")
    if (line ~ /(data|record) /) count = 1
    for (i = 1; i <= count; i++) if (words[i] ~ /[(){}=]/) return
    # A field is no name of its own: a parameter may have the same.
    in_record = !is_definition && text_of[block] ~ /^ *(pub )?record /
    for (i = 1; i <= count; i++) {
        if (is_definition && (!indent || line ~ /pub /) || !in_record && line ~ /^ +(abbrev |unfoldable )?pub [^ ]+ : / && line !~ /^    /) {
            if (!((place, words[i]) in defined)) defined[place, words[i]] = block
            if (name_of[block] == "") name_of[block] = words[i]
        } else if (!in_record && !((place, words[i]) in part)) part[place, words[i]] = block
    }
}

# A line of the root of a library: what it gives to others. The parts of the checks give to `check` alone, which
# promises.
function root_line(line,    list, names, count, i) {
    if (crate ~ /^(check_base|check_types|check_ports|check_processes|lower_types|lower_processes)$/) return
    if (line ~ /^pub mod /) {
        sub(/^pub mod /, "", line)
        sub(/;.*/, "", line)
        open_file["crates/" crate "/src/" line ".rt"]
    }
    if (line ~ /^pub use /) is_list = 1
    if (!is_list) return
    gsub(/^pub use |[a-z_0-9]+::|[{};]/, " ", line)
    count = split(line, names, /[ ,]+/)
    for (i = 1; i <= count; i++) if (names[i] != "") given[crate, names[i]]
    if ($0 ~ /;/) is_list = 0
}

function is_given(name) { return FILENAME in open_file || (crate, name) in given }

# A line of code: the clauses of public calls and what public types show are kept.
function code_line(line,    name, is_public) {
    if (line ~ /^ *ghost use /) { import(FILENAME, line); return }
    if (line ~ /^(pub )?(unsafe )?(impl|trait)[ <]/) {
        holder = line
        is_trait = line ~ /^impl.* for /
        if (line ~ /trait /) { sub(/^.*trait /, "", holder); is_trait = 1 }
        else if (is_trait) sub(/^.* for /, "", holder)
        else sub(/^impl(<[^>]*>)? /, "", holder)
        sub(/[^A-Za-z0-9_].*/, "", holder)
    }
    if (line ~ /^}/) holder = ""
    if (line ~ /^ *ghost [A-Za-z_]+ *[=:]/) {
        name = line
        sub(/^ *ghost /, "", name)
        sub(/[^A-Za-z_].*/, "", name)
        in_item = is_given(holder) && name !~ /^(coded|size|size_decreases|laws|is_clone|total|inside)$/
        sub(/^[^=:]*[=:]/, "", line)
        if (in_item) seeds[FILENAME] = seeds[FILENAME] " " line
        if ($0 ~ /}; *$/) in_item = 0
        return
    }
    if (in_item) {
        seeds[FILENAME] = seeds[FILENAME] " " line
        if (line ~ /}; *$/) in_item = 0
        return
    }
    if (line ~ /^ *(pub(\(crate\))? )?(const )?(unsafe )?fn /) {
        name = line
        sub(/^.*fn /, "", name)
        sub(/[^A-Za-z0-9_].*/, "", name)
        is_public = line ~ /^ *pub fn / || is_trait && line ~ /^    fn /
        in_call = is_public && (line ~ /^ / ? is_given(holder) : is_given(name))
        in_clauses = 0
    }
    if (in_call && line ~ /^ *(requires|ensures)/) in_clauses = 1
    if (line ~ /^ *\{\}? *$/ || line ~ /;$/ && !in_clauses) in_call = in_clauses = 0
    if (in_clauses) {
        sub(/^ *(requires|ensures)\*? *[a-z_0-9]* *\{/, "", line)
        seeds[FILENAME] = seeds[FILENAME] " " line
    }
}

FNR == 1 {
    split(FILENAME, steps, "/")
    crate = steps[2]
    place = module_of(FILENAME)
    frame = block = is_list = in_call = in_clauses = in_item = 0
    holder = ""
}
FILENAME ~ /\/src\/lib\.rt$/ { root_line($0) }
FILENAME ~ /\.rt$/ { code_line($0); next }
{ definition_line($0) }

END {
    for (file in seeds) if (how != "-r" || file ~ /^crates\/jolie_main\/src\/(top|world)\.rt$/) reach(file, seeds[file])
    for (at = 1; at <= queued; at++) {
        block = queue[at]
        if (frame_of[block] && !(frame_of[block] in reached)) {
            reached[frame_of[block]]
            queue[++queued] = frame_of[block]
        }
        reach(place_of[block], text_of[block])
    }
    for (block = 1; block <= blocks; block++) {
        kind = block in reached ? "believed" : file_of[block] in marked ? "proofs" : "loose"
        count[crate_of[block], kind] += lines_of[block]
        all[kind] += lines_of[block]
        if (kind == "loose" && how == "-u") print file_of[block] ": " name_of[block] ", " lines_of[block]
        if (kind == "believed" && file_of[block] in alone) {
            print file_of[block] ": a contract reaches " name_of[block] ", and the file says that it serves the proofs alone" > "/dev/stderr"
            failed = 1
        }
    }
    if (how == "-u") exit failed
    row = how == "-m" ? "| %s | %s | %s | %s |\n" : "%-20s %10s %12s %12s\n"
    printf row, "crate", "believed", "proofs alone", "not reached"
    if (how == "-m") print "|---|---:|---:|---:|"
    number = split(order, names, /[ \n]+/)
    for (i = 1; i <= number; i++) {
        sum = count[names[i], "believed"] + count[names[i], "proofs"] + count[names[i], "loose"]
        name = how == "-m" ? "`" names[i] "`" : names[i]
        if (sum) printf row, name, count[names[i], "believed"] + 0, count[names[i], "proofs"] + 0, count[names[i], "loose"] + 0
    }
    printf row, "all", all["believed"] + 0, all["proofs"] + 0, all["loose"] + 0
    exit failed
}' $(find crates -path '*/src/lib.rt' | sort) $(find crates -path '*/src/*.rt' ! -path '*/src/lib.rt' | sort) \
    $(find crates -path '*/specs/*.antt' ! -name Lib.antt | sort)
