# Reads names with their numbers from five sides and compares each side with the definitions. A name
# is compared as the header writes it, without QB_: not_sound and NotSound are NOT_SOUND.
#
# A line is read in one form only. One in another form is a fault, so that nothing is passed over:
# in a file that has nothing else any line but a comment, in another one the lines of what is read.

BEGIN {
    kinds = split("answer limit rule place size version", kind, " ")
    homes("code", "crates/ground/src/answers.rt", "answer")
    homes("code", "crates/ground/src/limits.rt", "limit")
    homes("header", "include/quynhabet.h", "answer limit rule place size version")
    homes("Rust", "rust/src/refusal.rs", "answer")
    homes("Rust", "rust/src/limits.rs", "limit")
    homes("Rust", "archive/src/layout.rs", "place size version")
    homes("Rust", "rust/src/report.rs", "rule")
    homes("second", "second/src/answer.rs", "answer")
    homes("second", "second/src/limits.rs", "limit")
    sides = split("code header Rust second", side, " ")
}

# where a side has the names of these kinds
function homes(who, file, which,    n, i, list) {
    n = split(which, list, " ")
    for (i = 1; i <= n; i++) home[who, list[i]] = file
}

function fault(where, what) {
    print where ": " what
    faults++
}

function here() {
    return FILENAME ":" FNR
}

function unread() {
    fault(here(), "this is not read: " $0)
}

# not_sound and NotSound as NOT_SOUND
function upper(name) {
    gsub(/[A-Z]/, "_&", name)
    sub(/^_/, "", name)
    return toupper(name)
}

# a word of a line, by its number, without what may stand around it
function word(n,    text) {
    text = $n
    gsub(/[;:,_]|UINT64_C|[()]/, "", text)
    return text
}

function defines(which, name, number, where) {
    if (name in defined) fault(where, name " is defined twice")
    defined[name] = number
    kind_of[name] = which
    defined_at[name] = where
    counted[which]++
}

function has(who, name, number) {
    if ((who, name) in found) fault(here(), name " stands here twice")
    found[who, name] = number
    found_at[who, name] = here()
    names[who] = names[who] " " name
}

# what is read goes no further than its file
FNR == 1 { into = declared = "" }

# ---- the definitions

FILENAME ~ /ground\/specs\/(Answers|Limits)\.antt$/ {
    if (declared != "") reads_number(FILENAME ~ /Answers/ ? "answer" : "limit")
    else if ($0 ~ /^abbrev pub [a-z_]+ : ℕ$/) declared = $3
    else if ($0 !~ /^(--.*|use .*)?$/) unread()
}

function reads_number(which) {
    if ($0 ~ ("^" declared " = [0-9]+$")) defines(which, upper(declared), $3, here())
    else unread()
    declared = ""
}

# the rules' weights by their numbers; the names of the rules are those of their functions
FILENAME ~ /rules\/specs\/Report\.antt$/ && /^rules_of r/ {
    rest = $0
    sub(/^rules_of r = /, "", rest)
    n = split(rest, term, / \+ /)
    for (i = 1; i <= n; i++) {
        if (term[i] !~ ("^number_if_acted r\\.rule" i " [0-9]+$")) unread()
        split(term[i], part, " ")
        weight[i] = part[3]
    }
}

FILENAME ~ /rules\/src\/rules\.rt$/ && /^(pub\(crate\) )?fn rule[0-9]/ {
    rest = $3
    sub(/\(.*/, "", rest)
    if (rest !~ /^rule[1-9]_[a-z_]+$/) unread()
    else {
        i = substr(rest, 5, 1)
        defines("rule", "RULE_" toupper(substr(rest, 7)), weight[i], here())
    }
}

FILENAME ~ /quynhabet\/specs\/Layout\.antt$/ {
    if (into != "") reads_field()
    else if (/^layout_version =/) reads_version()
    else if (/^(slot|token)_place k =/) reads_place()
    else if (/^station_of numbers =$/) into = "STATION_"
    else if (/^message_of numbers =$/) into = "MESSAGE_"
    else if (/^four_at numbers at =$/) into = "FOUR_"
}

function reads_version() {
    if ($0 ~ /^layout_version = [0-9]+$/) defines("version", "LAYOUT_VERSION", $3, here())
    else unread()
}

# the place of the first, and how many numbers there are from one to the next
function reads_place(    what) {
    what = /^slot/ ? "SLOT" : "TOKEN"
    if ($0 !~ /^(slot|token)_place k = [0-9]+ \+ [0-9]+ \* k$/) unread()
    first[what] = $4
    step[what] = $6
    defines("place", "STATION_" what, $4 " + " $6 " * peer", here())
}

# a line of the record that a station, a message or a four is read as
function reads_field() {
    if (into == "FOUR_") reads_four()
    else if (/^ *\}$/) into = ""
    else if (/^ *[a-z]+ = get_or numbers [0-9]+ 0;$/) places($1, word(5))
    else if (/^ *[a-z]+ = record \{ 0 = get_or numbers [0-9]+ 0 \};$/) places($1, word(9))
    else if (/^ *(slot|token) = (slot|token)_of \(four_at numbers [0-9]+\);$/) places($1, word(6))
    else if (!/^ *(record \{|slots = slots_of numbers;|tokens = tokens_of numbers;)$/) unread()
}

function places(field, place) {
    if (field ~ /^(source|destination)$/) field = field "_clock"
    defines("place", into toupper(field), place, here())
}

function reads_four(    rest, n, i, part, form) {
    rest = $0
    sub(/^ *record \{ /, "", rest)
    n = split(rest, part, /; | \}/) - 1
    into = ""
    for (i = 1; i <= n; i++) {
        form = i == 1 ? "at" : "\\(at \\+ " (i - 1) "\\)"
        if (part[i] !~ ("^[a-z]+ = get_or numbers " form " 0$")) unread()
        sub(/ =.*/, "", part[i])
        places(part[i], i - 1)
    }
    four = n
}

# ---- how many bytes the longest record has, from the widths of what it is made of

FILENAME ~ /record\/specs\/Fields\.antt$/ {
    rest = $0
    if (sub(/^tagged tag sizes numbers = /, "", rest)) {
        if (rest !~ /^big [0-9]+ tag \+\+ big [0-9]+ \(total sizes\) \+\+ body_of sizes numbers$/) unread()
        head = $7 + $11
    }
}

FILENAME ~ /record\/specs\/Dateless\.antt$/ {
    if (/^[a-z]+_field = /) {
        if ($3 !~ /^(required|optional)$/ || $4 !~ /^[0-9]+$/) unread()
        wide[$1] = head + body_length($0)
    } else if (/^dateless = /) defines("size", "RECORD_MAX", width($0), here())
}

# the sum of a list of sizes, (4 ∷ 4 ∷ 8 ∷ [])
function body_length(text,    n, i, part, sum) {
    if (!sub(/^[^(]*\(/, "", text) || !sub(/ ∷ \[\]\) [a-z_]+$/, "", text)) unread()
    n = split(text, part, / ∷ /)
    for (i = 1; i <= n; i++) {
        if (part[i] !~ /^[0-9]+$/) unread()
        sum += part[i]
    }
    return sum
}

# the sum of the widths of a table's lines
function width(text,    n, i, part, sum) {
    sub(/^dateless = /, "", text)
    if (!sub(/ ∷ \[\]$/, "", text)) unread()
    n = split(text, part, / ∷ /)
    for (i = 1; i <= n; i++) {
        if (!(part[i] in wide)) unread()
        sum += wide[part[i]]
    }
    return sum
}

# ---- the Rattle code

FILENAME ~ /ground\/src\/(answers|limits|refusal)\.rt$/ {
    if (into == "refusals") reads_refusal()
    else if (into == "told") reads_told()
    else if (/^pub enum Refusal \{$/) into = "refusals"
    else if (/^impl Refusal \{$/) into = "told"
    else if (/^pub const [A-Z_]+: (u8|u32|u64|usize) = [0-9_]+;$/) {
        rest = $3
        sub(/:/, "", rest)
        has("code", rest, word(6))
    } else if (!/^(\/\/.*|ghost use .*;|use crate::answers;|#\[derive\(.*\)\])?$/) unread()
}

# each refusal is told as the number of its name
function reads_refusal() {
    if (/^\}$/) into = ""
    else if (/^    [A-Z][A-Za-z]+,$/) refusal[upper(word(1))] = here()
    else unread()
}

function reads_told(    name, number) {
    if (/^\}$/) into = ""
    else if (/^            Refusal::[A-Z][A-Za-z]+ => answers::[A-Z_]+,$/) {
        name = upper(substr(word(1), length("Refusal") + 1))
        number = substr($3, length("answers::") + 1)
        sub(/,$/, "", number)
        if (name != number) fault(here(), name " is told as " number)
        told[name] = 1
    } else if (!/^ +(\/\/.*|pub fn number\(self\) -> u8|ensures \{ result ≡ number_of self \}|match self \{|\{|\})$/) unread()
}

# ---- the header

FILENAME ~ /\.h$/ && /#[ \t]*define/ {
    rest = $2
    if (sub(/^QB_/, "", rest) == 0) {
        if ($0 != "#define QUYNHABET_H") unread()
    } else if (/^#define QB_[A-Z_]+ ([0-9]+|UINT64_C\([0-9]+\))( +\/\*[^*]*\*\/)?$/) {
        has("header", rest, word(3))
    } else if (/^#define QB_STATION_[A-Z]+\(peer\) \([0-9]+ \+ [0-9]+ \* \(peer\)\)$/) {
        sub(/\(.*/, "", rest)
        has("header", rest, word(3) " + " word(5) " * peer")
    } else unread()
}

# ---- the Rust package, and the layout that it takes from the package below it

FILENAME ~ /rust\/src\/refusal\.rs$/ {
    if (/^pub\(crate\) const DONE/) reads_const("Rust")
    else if (/^pub enum Refusal \{$/) into = "enum"
    else if (/^    pub fn number\(self\) -> u64 \{$/) into = "number"
    else if (/^ *\}$/) into = ""
    else if (into == "enum") reads_variant()
    else if (into == "number") reads_arm()
}

# a variant after a comment, whose first word is its number
function reads_variant() {
    if (/^    \/\/\/ [0-9]+: /) said = word(2)
    else if (/^    [A-Z][A-Za-z]+,$/) said_of[upper(word(1))] = said
    else if (!/^    (\/\/\/ .*|Other\(u64\),)$/) unread()
}

function reads_arm(    name) {
    if (/^            Refusal::[A-Z][A-Za-z]+ => [0-9]+,$/) {
        name = upper(substr(word(1), length("Refusal") + 1))
        has("Rust", name, word(3))
        if (said_of[name] != word(3)) {
            fault(here(), name " is " word(3) ", and its comment says " said_of[name])
        }
    } else if (!/^ +(match self \{|Refusal::Other\(number\) => number,)$/) unread()
}

FILENAME ~ /(rust\/src\/limits|archive\/src\/layout)\.rs$/ {
    if (/^pub const [A-Z_]+: /) reads_const("Rust")
    else if (/^pub const fn station_[a-z]+\(peer: usize\) -> usize \{$/) begins_place()
    else if (into != "") reads_peer()
    else if (!/^(\/\/.*|\})?$/) unread()
}

function reads_const(who,    name) {
    name = $3
    sub(/:/, "", name)
    if (/ [a-z0-9]+ = [0-9_]+;$/ && NF == 6) has(who, name, word(6))
    else unread()
}

function begins_place() {
    into = toupper($4)
    sub(/\(.*/, "", into)
}

function reads_peer() {
    if (/^    [0-9]+ \+ [0-9]+ \* peer$/) has("Rust", into, word(1) " + " word(3) " * peer")
    else unread()
    into = ""
}

# a rule's weight is that of its place among the five
FILENAME ~ /rust\/src\/report\.rs$/ {
    if (/^pub enum Rule \{$/) into = "rules"
    else if (/^\}$/) into = ""
    else if (into == "rules") reads_rule()
}

function reads_rule() {
    if (/^    [A-Z][A-Za-z]+,$/) has("Rust", "RULE_" upper(word(1)), 2 ^ rules++)
    else if (!/^    \/\/\/ Rule / || word(3) != rules + 1) unread()
}

# ---- the second program, which has limits of its own beside these

FILENAME ~ /second\/src\/answer\.rs$/ {
    if (/^pub enum Answer \{$/) into = "enum"
    else if (/^\}$/) into = ""
    else if (into == "enum") reads_answer()
}

function reads_answer() {
    if (/^    [A-Z][A-Za-z]+ = [0-9]+,$/) has("second", upper(word(1)), word(3))
    else if (!/^    \/\/\/ /) unread()
}

FILENAME ~ /second\/src\/limits\.rs$/ && /^pub const / {
    rest = $3
    sub(/:/, "", rest)
    if (rest in defined) reads_const("second")
}

# ---- all of them

END {
    sizes()
    for (i = 1; i <= kinds; i++) if (!counted[kind[i]]) fault("the definitions", "no " kind[i])
    for (i = 1; i <= sides; i++) compare(side[i])
    refusals()
    if (faults) exit 1
    for (i = 1; i <= kinds; i++) printf "%s%s", i == 1 ? "" : ", ", many(kind[i])
    print ": the same in definitions, code, header, Rust package and second program"
}

function many(which) {
    return counted[which] " " which (counted[which] == 1 ? "" : "s")
}

# The slots and then the tokens fill a station to its end, for as many peers as there can be.
function sizes(    file, most, end) {
    file = "crates/quynhabet/specs/Layout.antt"
    most = defined["MOST_STATIONS"]
    end = first["SLOT"] + four * most
    if (step["SLOT"] != four || step["TOKEN"] != four || first["TOKEN"] != end) {
        fault(file, "the slots and then the tokens do not follow one another")
    }
    defines("size", "STATION_NUMBERS", end + four * most, file)
    defines("size", "MESSAGE_NUMBERS", defined["MESSAGE_TOKEN"] + four, file)
}

# every answer but 0 is a refusal of the code, and is told
function refusals(    file, name) {
    file = "crates/ground/src/refusal.rt"
    for (name in defined) {
        if (kind_of[name] != "answer" || name == "DONE") continue
        if (!(name in refusal)) fault(file, name " is no refusal")
        else if (!(name in told)) fault(refusal[name], name " is not told")
    }
    for (name in refusal) if (!(name in defined)) fault(refusal[name], name " is a refusal, and in no definition")
}

function compare(who,    n, i, name, list, file) {
    for (name in defined) {
        file = home[who, kind_of[name]]
        if (file != "" && !((who, name) in found)) {
            fault(file, name " is missing, which is in " defined_at[name])
        }
    }
    n = split(names[who], list, " ")
    for (i = 1; i <= n; i++) holds(list[i], found[who, list[i]], found_at[who, list[i]])
}

function holds(name, number, where) {
    if (!(name in defined)) fault(where, name " is in no definition")
    else if (number != defined[name]) {
        fault(where, name " is " number ", and " defined[name] " in " defined_at[name])
    }
}
