# The lists of crates/demands/specs that speak of promises, Settled and Demand1, held against the
# promises that tools/promises.awk read. Each public function has a row in Settled, and one in
# Demand1 if its result holds a field `answer`, itself or in a struct that it holds. A row's key is
# crate-function, or crate-Type-method; its binders are the parameters by their names, in their
# order; what it says is, in
#
#     Settled    Settles PATH.ended (λ M 𝓤. PATH.clauses) (λ κ. (a, (b, tt))) (λ κ r. r ≡ d a b.now), where b is lent, or
#                SettlesBoth PATH.ended (λ M 𝓤. PATH.clauses) (λ κ. (a, (b, tt))) (λ κ e. e.1.0.now) (λ κ. P a b.now), where b is lent to be changed;
#                PATH is Rattle.crate.specs.contracts.module.function, and e has what each parameter is at the end: e.0, e.1.0, e.1.1.0, ..
#     Demand1    F .. (d a b), or with r and b' for binders too P a b r b' → F .. r b', where F is defined in Demand1
#
# and `d` or `P` is what the promise cites: imported in the list from the very module that the
# source imports it from, under whatever name. A function that Demand1 has no row for is named there
# with the reason, "-- Not listed: `crate::function`. Why.". Fails also where a row is doubled or is
# no public function's, where a list has no row, and where it has something that is not read so.
#
# A function of an implementation of a public trait has the key crate-TypeTrait-function. What it
# promises has no name in the source. So the name in its row is any that is imported from a specs
# module, and the theorem of the list alone says that it is what the implementation gives.
#
# An export has no row. It has the head and the clause, word for word, of the library's function of
# the same name that it calls, and cites the same.

FNR == 1 && FILENAME ~ /\.antt$/ { list = "" }

FILENAME ~ /\.antt$/ {
    if ($0 ~ /\{-/) fault(here(), "a comment by {- is not read: " $0)
    else if ($0 ~ /^use /) imports($0)
    else if ($0 ~ /^-- Not listed: / && FILENAME ~ /\/Demand1\.antt$/) exempts($0)
    else if ($0 ~ /^pub record [A-Za-z0-9]+ : Type [0-9]+ where$/) begins_list($3)
    else if ($0 ~ /^(pub )?(use|open|mod|module|data|mutual|axiom|ruleset|record) /) fault(here(), "in a list this is not read: " $0)
    else if (list == "" && $0 ~ /^((abbrev|unfoldable) )*(pub )?[^ ]+ : /) declares($0)
    else if (list != "" && $0 !~ /^ *(--.*)?$/) reads_row($0)
}

function begins_list(name) {
    if (list != "" || name in list_file) fault(here(), "in a list this is not read: " $0)
    list = name
    list_file[list] = FILENAME
}

function declares(line) {
    sub(/^((abbrev|unfoldable) )*(pub )?/, "", line)
    sub(/ : .*/, "", line)
    declared[FILENAME, line] = 1
}

function reads_row(line) {
    if (line ~ /^  pub [^ ]+ :( |$)/) begins_row($2, line)
    else if (line ~ /^    / && rows[list]) row[list, last] = trimmed(row[list, last] " " trimmed(line))
    else fault(here(), "in a list this is not read: " line)
}

function begins_row(key, line) {
    if ((list, key) in row) fault(here(), key " is doubled in " list)
    sub(/^  pub [^ ]+ : */, "", line)
    row[list, key] = line
    row_at[list, key] = here()
    row_list[++all_rows] = list
    row_key[all_rows] = last = key
    rows[list]++
}

function trimmed(line) {
    sub(/^ +/, "", line)
    return line
}

function exempts(line,    n, i, part) {
    if (line !~ /^-- Not listed: (`[^`]+`, )*`[^`]+`\. ./) fault(here(), "it is not said what is not listed, and why: " line)
    sub(/`\. .*/, "`", line)
    n = split(line, part, "`")
    for (i = 2; i < n; i += 2) {
        if (part[i] in exempt) fault(here(), part[i] " is said twice not to be listed")
        exempt[part[i]] = here()
    }
}

# ---- a row, held against its function

# the names that a row binds, each after a blank; what comes after them is `left`
function binders(text,    names, group, depth, i, c) {
    while (text ~ /^\([^()]+ : /) {
        depth = 0
        for (i = 1; i <= length(text); i++) {
            c = substr(text, i, 1)
            if (c == "(") depth++
            if (c == ")" && --depth == 0) break
        }
        group = substr(text, 2, i - 2)
        sub(/ : .*/, "", group)
        names = names " " group
        text = trimmed(substr(text, i + 1))
    }
    sub(/^→ /, "", text)
    left = text
    return names
}

function last_name(cited) {
    sub(/.*\./, "", cited)
    return cited
}

# the row as it should be, with _ for a type
function expected(key, names, begin, end,    n, i, part, text) {
    n = split(names, part, " ")
    for (i = 1; i <= n; i++) text = text "(" part[i] " : _)" (i < n ? " " : " → ")
    return "pub " key " : " text begin last_name(promise[key]) end
}

# a row has these binders, and then, between a beginning and an end, the name that the promise cites
function holds_row(list, key, names, begin, end,    found, cited) {
    if (!((list, key) in row)) {
        fault(function_at[key], label[key] " is missing in " list ": " expected(key, names, begin, end))
        return
    }
    found = binders(row[list, key])
    cited = between(left, begin, end)
    if (found != names || cited == "" || index(names " ", " " cited " ")) fault(row_at[list, key], label[key] ": its row in " list " should be " expected(key, names, begin, end))
    else if (key in implemented) {
        if (meaning(list_file[list], cited) !~ /^Rattle\.[^ .]+\.specs\.[^ ]+$/) fault(row_at[list, key], label[key] ": its row in " list " is about " meaning(list_file[list], cited))
    } else if (meaning(list_file[list], cited) != promise[key]) {
        fault(row_at[list, key], label[key] ": its row in " list " is about " meaning(list_file[list], cited) ", and its promise about " promise[key])
    }
}

# the arguments of a call as a contract takes them: (a, (b, tt))
function tuple(key,    i, text) {
    text = "tt"
    for (i = count[key]; i > 0; i--) text = "(" parameter[key, i] ", " text ")"
    return text
}

# what is then in the one parameter that is lent to be changed
function at_exit(key,    i, way) {
    for (i = 1; how[key, i] != "changed"; i++) way = way ".1"
    return "(λ κ e. e" way ".0.now) "
}

function holds_settled(key,    begin, claim) {
    begin = changes(key) ? "SettlesBoth " : "Settles "
    begin = begin path[key] ".ended (λ M 𝓤. " path[key] ".clauses) (λ κ. " tuple(key) ") " (changes(key) ? at_exit(key) : "")
    claim = equation[key] ? "(λ κ r. r ≡ " : "(λ κ. "
    holds_row("Settled", key, arguments(key, "", ""), begin claim, arguments(key, ".now", ".now") ")")
}

# what a row of Demand1 says of an outcome: some words, the first of them defined in the list
function refused(text, end,    first) {
    first = text
    sub(/ .*/, "", first)
    return (list_file["Demand1"], first) in declared && text !~ /[()]|→/ && ends(text, end) ? text : "REFUSED .." end
}

function holds_equation(key, said,    args) {
    args = arguments(key, "", "")
    sub(/ \([^()]*\)$/, "", said)
    holds_row("Demand1", key, args, refused(said, "") " (", args ")")
}

function holds_relation(key, said,    after, names) {
    after = " r" later(key, "'")
    gsub(/»'/, "'»", after)
    names = arguments(key, "", "") after
    sub(/.* → /, "", said)
    holds_row("Demand1", key, names, "", names " → " refused(said, after))
}

function exempted(key) {
    if (!(label[key] in exempt)) return 0
    if (("Demand1", key) in row) fault(exempt[label[key]], label[key] " has a row in Demand1, and is said not to be listed")
    if (answers(result[key], 0)) fault(exempt[label[key]], label[key] " answers, and is said not to be listed")
    return 1
}

function holds_demand1(key) {
    refusals++
    left = ""
    if (("Demand1", key) in row) binders(row["Demand1", key])
    if (equation[key]) holds_equation(key, left)
    else holds_relation(key, left)
}

# an export says what the function says that it calls
function holds_export(key,    same) {
    same = calls[key] in at_place ? at_place[calls[key]] : ""
    if (same == "" || last_part(calls[key]) != last_part(label[key])) fault(function_at[key], label[key] ": its body is not the call of a library's function of its name: " body[key])
    else if (signature[key] != signature[same]) fault(function_at[key], label[key] ": its head is not that of " place[same] ", which it calls: " signature[same])
    else if (words[key] != words[same]) fault(function_at[key], label[key] ": its promise is not that of " place[same] ", which it calls: " words[same])
    else if (promise[key] != promise[same]) fault(function_at[key], label[key] ": its promise is about " promise[key] ", and that of " place[same] ", which it calls, about " promise[same])
}

function holds_function(key) {
    if (place[key] in at_place) known[label[key]] = 1
    if (!(key in promise)) return
    if (key in calls) {
        holds_export(key)
        return
    }
    holds_settled(key)
    if (!exempted(key)) holds_demand1(key)
}

function holds_names(file) {
    holds_name(file, "Rattle.std.specs.Prelude", "◌≡◌")
    holds_name(file, "Rattle.demands.specs.Promises", "Settles")
    holds_name(file, "Rattle.demands.specs.Promises", "SettlesBoth")
}

END {
    for (i = 1; i <= functions; i++) holds_function(keys[i])
    for (i = 1; i <= all_rows; i++) {
        if (!(row_key[i] in function_at) || row_key[i] in calls) fault(row_at[row_list[i], row_key[i]], row_key[i] " in " row_list[i] " is no public function of a library")
    }
    for (name in exempt) if (!(name in known)) fault(exempt[name], name " is said not to be listed, and is no public function of a library")
    if (!rows["Settled"] || !rows["Demand1"]) fault("crates/demands/specs", "a list has no row")
    else holds_names(list_file["Settled"])
    if (functions == exports) fault("crates", "there is no public function")
    if (faults) exit 1
    print functions - exports " public functions: the promise of each stands in Settled, and those of " refusals " in Demand1; " exports + 0 " exports promise what they call"
}
