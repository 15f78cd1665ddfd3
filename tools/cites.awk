# First the paths that there are, one on a line as find prints them; then docs/TRACE.md.
#
# Whatever stands there in backquotes is one of these:
#   crate/specs/File, crate/proofs/File, crate/src/file    a file in crates/. Names may follow it,
#                                   after a blank and separated by commas: each is defined there
#   crate/must-fail/name            an edit in crates/
#   path/from/root, folder/         as it stands
#   crate::function, crate::Type::function      in a source file of that crate
#   name                            a crate, or defined in a file that the same row cites
#   a plain word                    one of those below
# In a row's first cell, words of document 01 itself may stand so too: those with a blank.
#
# A row is `| cell | cell |`. A paragraph or an entry of a list is read as a row of one cell.

BEGIN {
    # what language and documents say, and the first paragraph's own examples
    n = split("u64 ensures requires result main crate/specs/File crate/proofs/File " \
        "crate/src/file crate/must-fail/name crate::function", word, " ")
    for (i = 1; i <= n; i++) plain[word[i]] = 1
}

function fault(what) {
    print file ":" line ": " what
    faults++
}

# ---- the paths

FNR == NR {
    sub(/^\.\//, "")
    there[$0] = 1
    if ($0 ~ /^crates\/[^\/]+\/src\/.*\.rt$/) sources = sources " " $0
    next
}

# ---- the document, row by row

FNR == 1 { file = FILENAME }

/^\|/ {
    ends_text()
    line = FNR
    if ($0 ~ /^\| [^|]*[^| ] \| [^|]*[^| ] \|$/) {
        split($0, cell, / *\| */)
        reads_row(cell[2], cell[3])
        rows++
    } else if ($0 != "|---|---|") fault("this is no row of two cells: " $0)
    next
}

/^(#.*)?$/ {
    ends_text()
    if (/`/) fault("this is not read: " $0)
    next
}

{
    if (/^- /) ends_text()
    if (text == "") line = FNR
    if (/\|/) fault("this is no row of two cells: " $0)
    text = text == "" ? $0 : text " " $0
}

function ends_text() {
    if (text != "") reads_row("", text)
    text = ""
}

# bare names are looked up last, when it is known what the row cites
function reads_row(first, rest,    i) {
    cited = bare = ""
    reads_cell(first, 1)
    reads_cell(rest, 0)
    n = split(bare, name, " ")
    for (i = 1; i <= n; i++) reads_bare(name[i])
}

# text, then what stands in backquotes, then text again
function reads_cell(cell, is_first,    n, i, part) {
    n = split(cell, part, "`")
    if (n > 0 && n % 2 == 0) fault("a backquote is alone: " cell)
    for (i = 2; i < n; i += 2) reads_quoted(part[i], part[i + 1], is_first)
}

function reads_quoted(quoted, after, is_first) {
    if (quoted in plain) return
    if (is_first && quoted ~ / /) return
    if (quoted ~ /^[A-Za-z0-9_.\/-]+\/[A-Za-z0-9_.\/-]*$/) reads_path(quoted, after)
    else if (quoted ~ /^[a-z]+(::[A-Za-z0-9_]+)+$/) reads_function(quoted)
    else if (quoted ~ /^[A-Za-z][A-Za-z0-9_-]*$/) bare = bare " " quoted
    else fault("`" quoted "` is neither a path nor a name")
}

# ---- paths, and the names after them

function reads_path(path, after,    at) {
    paths++
    if (path ~ /\/$/) at = substr(path, 1, length(path) - 1)
    else if (("crates/" path ".antt") in there) at = "crates/" path ".antt"
    else if (("crates/" path ".rt") in there) at = "crates/" path ".rt"
    else if (("crates/" path ".edit") in there) at = "crates/" path ".edit"
    else at = path
    if (!(at in there)) fault("there is no " path)
    else if (at ~ /\.(antt|rt)$/) reads_names(path, at, after)
}

# the names go on to the first sign that is no comma, or to the next backquote
function reads_names(path, at, after,    n, i, list) {
    cited = cited " " at
    knows(at)
    sub(/[;:(].*/, "", after)
    sub(/,? *$/, "", after)
    if (after == "") return
    if (after !~ /^ [A-Za-z]/) {
        fault("after `" path "` this is not read:" after)
        return
    }
    n = split(substr(after, 2), list, ", ")
    for (i = 1; i <= n; i++) {
        names++
        if (!((at, list[i]) in defined)) fault(list[i] " is not defined in " at)
    }
}

# reads the definitions of a file, once
function knows(at,    text) {
    if (at in known) return
    known[at] = 1
    while ((getline text < at) > 0) {
        if (at ~ /\.rt$/) knows_code(at, text)
        else knows_definition(at, text)
    }
    close(at)
}

# a definition, a field of a record, or a case of data, by the line that gives its type
function knows_definition(at, text,    keyed) {
    if (text !~ /^(  )?[a-zA-Z]/) return
    sub(/^  /, "", text)
    sub(/^(abbrev|unfoldable) /, "", text)
    sub(/^pub /, "", text)
    keyed = sub(/^(record|data) /, "", text)
    if (text ~ /^[^ (){}]+ : / || (keyed && text ~ /^[^ (){}]+ [({]/)) {
        sub(/ .*/, "", text)
        defined[at, text] = 1
    }
}

# a function is kept with its type before it too, or with nothing
function knows_code(at, text,    name) {
    if (text ~ /^(impl|\})/) type[at] = ""
    sub(/^impl<[^>]*>/, "impl", text)
    sub(/^ *(pub(\(crate\))? )?(extern "C" )?/, "", text)
    if (text !~ /^(impl|fn|struct|enum|trait|const) [A-Za-z0-9_]+/) return
    name = part_of(text)
    if (text ~ /^impl/) type[at] = name
    else defined[at, name] = 1
    if (text ~ /^fn/) defined[at, type[at] "::" name] = 1
}

# the name in `fn name(` and the like
function part_of(text) {
    sub(/^[a-z]+ /, "", text)
    sub(/[^A-Za-z0-9_].*/, "", text)
    return text
}

# ---- functions and bare names

function reads_function(quoted,    crate, member, n, i, source) {
    functions++
    crate = member = quoted
    sub(/::.*/, "", crate)
    sub(/^[a-z]+/, "", member)
    if (member ~ /::.*::/) sub(/^::/, "", member)
    n = split(sources, source, " ")
    for (i = 1; i <= n; i++) {
        if (index(source[i], "crates/" crate "/src/") != 1) continue
        knows(source[i])
        if ((source[i], member) in defined) return
    }
    fault("there is no function " quoted)
}

function reads_bare(quoted,    n, i, at) {
    names++
    if (("crates/" quoted) in there) return
    n = split(cited, at, " ")
    for (i = 1; i <= n; i++) if ((at[i], quoted) in defined) return
    fault("`" quoted "` is no crate, and is defined in no file that its row cites")
}

END {
    ends_text()
    if (rows < 2 || !paths || !names || !functions) fault("rows or citations are missing")
    if (faults) exit 1
    print "docs/TRACE.md: " paths " paths, " names " names, " functions " functions, each there"
}
