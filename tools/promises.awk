# What every public function promises. Run with tools/listed.awk, by tools/listed, over crates.txt
# and the source files of all crates. Fails, with file, line and function, where a public function
# (`pub fn`, `pub extern "C" fn`, in an `impl` too) has a requires, or has not one ensures of one of
# two forms:
#
#     result ≡ d a b.now              only where nothing is lent to be changed
#     P a b.now c.old result c.new    with the later content of the `&mut` parameter, of which there is at most one
#
# where `d` or `P` is one name, imported from a specs module, and applied to all parameters in their
# order: to what one that is lent holds when the call begins, to any other itself. It reads the
# layout of rt fmt: a head begins its line with `pub fn` or `pub extern "C" fn`, has in it only its
# parameters and its result, each clause is a line of its own, with a name or without, and then
# comes a line that is the opening brace.
# A head, or something public, that it does not read so is a failure:
# pub and fn on two lines, or two blanks apart; two functions on a line; another word before fn
# (pub(in ..), pub(super), const, unsafe, another extern, an attribute); a line of comment in a
# head, or a comment by /*; a clause on the head's own line, or on two lines; a starred clause,
# which is no plain fact; no brace; a module in a module; a macro, made or called, that may stand
# for functions.
# `pub(crate) fn` is not public.
#
# A function of a public trait has no requires either, and one ensures, `result ≡ g a b`, where `g`
# is a ghost item of the trait. It has no body there. Each implementation of the trait is for one
# plain type, and says what its ghost items are; its functions have no clauses of their own, and are
# public functions: tools/listed.awk holds their rows against them. So a trait and an implementation
# begin at the margin, the head of an implementation is one line with nothing else on it, and a
# public trait is brought in by its own name.
#
# A public function of a static library (`NAME staticlib:` in crates.txt) is an export. Its body is
# one line, the call of a function of its name by the path crate::module::name, with its parameters
# in their order; tools/listed.awk holds it against that function.

# the public traits, before any file is read
BEGIN {
    for (i = 1; i < ARGC; i++) {
        if (ARGV[i] !~ /\.rt$/) continue
        while ((getline text < ARGV[i]) > 0) if (text ~ /^pub trait /) is_trait[named(text, "pub trait ")] = 1
        close(ARGV[i])
    }
}

function fault(where, what) {
    print where ": " what
    faults++
}

function here() {
    return FILENAME ":" FNR
}

function ends(text, end) {
    return substr(text, length(text) - length(end) + 1) == end
}

# the plain name between a beginning and an end; empty where the text is anything else
function between(text, begin, end,    name) {
    if (length(text) <= length(begin) + length(end)) return ""
    if (substr(text, 1, length(begin)) != begin || !ends(text, end)) return ""
    name = substr(text, length(begin) + 1, length(text) - length(begin) - length(end))
    return name ~ /^[^ (){}.;,@"]+$/ ? name : ""
}

# `use M.{a, b as c}`: what each name of the file stands for
function imports(line,    module, n, i, item, pair) {
    if (line !~ /^use [^ {}]+\.\{[^{}]+\}$/) {
        fault(here(), "an import is not read: " line)
        return
    }
    module = line
    sub(/^use /, "", module)
    sub(/\.\{.*/, "", module)
    sub(/^[^{]*\{/, "", line)
    sub(/\}$/, "", line)
    n = split(line, item, /, */)
    for (i = 1; i <= n; i++) {
        if (split(item[i], pair, " as ") == 1) pair[2] = pair[1]
        if ((FILENAME, pair[2]) in imported) fault(here(), pair[2] " is imported twice")
        imported[FILENAME, pair[2]] = module "." pair[1]
    }
}

function meaning(file, name) {
    if ((file, name) in declared) return name ", which is defined here"
    return (file, name) in imported ? imported[file, name] : name ", which is not imported"
}

# a name that has to mean what it means in that module
function holds_name(file, module, name) {
    if (meaning(file, name) != module "." name) fault(file, name " is not that of " module ": " meaning(file, name))
}

# ---- crates.txt: which crates are static libraries

FILENAME ~ /(^|\/)crates\.txt$/ {
    line = $0
    sub(/#.*/, "", line)
    sub(/^[ \t]+/, "", line)
    split(line, part, /[ \t:]+/)
    if (part[1] ~ /\//) fault(here(), "a crate within a folder is not read: " part[1])
    if (line ~ /^[^:]*[ \t]staticlib([ \t:]|$)/) static[part[1]] = 1
}

# ---- a source file, line by line

FNR == 1 && FILENAME ~ /\.rt$/ {
    split(FILENAME, part, "/")
    crate = part[2]
    module = FILENAME
    sub(/^crates\/[^\/]*\/src\//, "", module)
    sub(/\.rt$/, "", module)
    gsub(/\//, ".", module)
    sub(/(^|\.)(lib|main|mod)$/, "", module)
    type = struct = trait = of = head = exported = ""
}

FILENAME ~ /\.rt$/ {
    if (head != "") reads_head(code($0))
    else {
        if (exported != "") reads_body(code($0))
        reads_line(code($0))
    }
}

# a line without its comment, its byte strings and its bytes
function code(line) {
    gsub(/b'[^']+'|b'\\''/, "0", line)
    gsub(/b"([^"\\]|\\.)*"/, "0", line)
    sub(/[ \t]*\/\/.*/, "", line)
    return line
}

function has(line, word) {
    return line ~ ("(^|[^A-Za-z0-9_])" word "([^A-Za-z0-9_]|$)")
}

function reads_line(line,    why) {
    why = unread(line)
    if (why != "") fault(here(), why " not read: " line)
    else if (trait != "") reads_trait(line)
    else if (of != "" && line ~ /^ *fn /) begins_head(line)
    else if (line ~ /^ghost use /) imports(ghostless(line))
    else if (line ~ /^use [a-z0-9_:]+;$/) brings(line)
    else if (line ~ /^pub trait /) begins_trait(line)
    else if (line ~ /^impl/) begins_impl(line)
    else if (line ~ /^(pub(\(crate\))? )?struct /) struct = named(line, "(pub(\\(crate\\))? )?struct ")
    else if (line ~ /^}/) type = struct = of = ""
    else if (line ~ /^ *pub (extern "C" )?fn /) begins_head(line)
    else if (struct != "") reads_field(line)
}

# what in a line could hide a public function
function unread(line,    name) {
    if (line ~ /\/\*/) return "a comment by /* is"
    if (line ~ /^ *(pub )?mod [a-z0-9_]+ *\{/) return "a module in a module is"
    if (has(line, "impl") && line !~ /^impl(<[^>]*>)? / && !of_a_kind(line)) return "an implementation here is"
    if (line ~ /^ +pub(\(crate\))? trait /) return "a trait here is"
    for (name in is_trait) if (line ~ ("(^|[^A-Za-z0-9_])" name " as( |$)")) return "a public trait by another name is"
    if (has(line, "macro_rules") || line ~ /^[A-Za-z0-9_:]+! *[({[]/) return "a macro is"
    if (has(line, "fn") && line !~ /^ *(pub |pub\(crate\) )?(extern "C" )?fn [A-Za-z0-9_]+(<[^()]*>)?\(/) return "the head of a function is"
    if (has(line, "fn") && has(substr(line, index(line, "fn ") + 3), "fn")) return "two functions on a line are"
    if (has(line, "pub") && line !~ /^ *pub(\(crate\))? ((extern "C" )?fn|struct|enum|trait|const|type|mod|use|[a-z][a-z0-9_]*:) /) return "what is public here is"
    if (line ~ /(^|[^A-Za-z0-9_])(impl|trait|as)([^A-Za-z0-9_]|$)/ && line ~ /\t|[^ ]  |r#/) return "a line laid out otherwise is"
    return ""
}

# `impl Trait` as the type of a parameter, and no implementation
function of_a_kind(line) {
    return line ~ /[:&(,<=>] *(mut )?impl / && line !~ /(^|[^A-Za-z0-9_])impl [^{(]* for /
}

function ghostless(line) {
    sub(/^ghost /, "", line)
    sub(/;$/, "", line)
    return line
}

# `use a::b;`: the path that b stands for
function brings(line) {
    sub(/^use /, "", line)
    sub(/;$/, "", line)
    brought[FILENAME, last_part(line)] = line
}

function last_part(way) {
    sub(/.*::/, "", way)
    return way
}

# the name that comes after what a pattern describes
function named(line, before) {
    sub("^" before, "", line)
    sub(/[^A-Za-z0-9_].*/, "", line)
    return line
}

# ---- public traits, and what implements them

function begins_trait(line) {
    trait = named(line, "pub trait ")
    if (line !~ /^pub trait [A-Za-z0-9_]+(: [A-Za-z0-9_]+( \+ [A-Za-z0-9_]+)*)? \{$/) fault(here(), "a public trait is not read: " line)
}

function reads_trait(line) {
    if (line ~ /^}/) trait = ""
    else if (line ~ /^    ghost [a-z][a-z0-9_]*: \{ .* \};$/) ghost[trait, named(line, "    ghost ")] = 1
    else if (line ~ /^    fn [A-Za-z0-9_]+\(/) begins_head(line)
    else if (line !~ /^(    ghost use .*;| *)$/) fault(here(), "in a public trait this is not read: " line)
}

# an implementation of a public trait is known by its type and the trait, as its contracts are
function begins_impl(line,    i, name, part) {
    if (line !~ /\{\}?$/) fault(here(), "the head of an implementation is not read: " line)
    type = named(line, "impl(<[^>]*>)? ")
    for (name in is_trait) if (line ~ ("[ :]" name "(<.*)? for ")) of = name
    if (of == "") return
    split(line, part, " ")
    type = part[4] of
    if (line !~ ("^impl " of " for [A-Za-z0-9_]+ \\{$")) fault(here(), "an implementation of a public trait is not read: " line)
}

# a function of the trait itself has no row: its promise is its ghost item, which is another's in
# each implementation
function ends_method(    key, said, cited) {
    key = crate "-" trait "." name
    label[key] = crate "::" trait "::" name
    reads_parameters(key)
    said = clause[1]
    sub(/^ensures [a-z][a-z0-9_]* /, "ensures ", said)
    cited = clauses == 1 ? between(said, "ensures { result ≡ ", arguments(key, ".now", ".old") " };") : ""
    if (changes(key)) fault(at, label[key] ": a parameter of a trait's function is lent to be changed:" later(key, ""))
    else if (!((trait, cited) in ghost)) fault(at, label[key] ": its ensures is not one ghost item of its trait applied to" arguments(key, ".now", ".old"))
    head = ""
}

# ---- structs: which of them hold an answer

function reads_field(line,    half) {
    sub(/^ +(pub(\(crate\))? )?/, "", line)
    if (split(line, half, ": ") == 2) fields[struct] = fields[struct] " " half[1] ":" named(half[2], "\\[?")
}

function answers(struct, depth,    n, i, field, half) {
    if (depth > 4) return 0
    n = split(fields[struct], field, " ")
    for (i = 1; i <= n; i++) {
        split(field[i], half, ":")
        if (half[1] == "answer" || answers(half[2], depth + 1)) return 1
    }
    return 0
}

# ---- the head of a public function

function begins_head(line) {
    at = here()
    margin = line
    sub(/(pub|fn) .*/, "", margin)
    sub(/^ *(pub (extern "C" )?)?fn /, "", line)
    name = named(line, "")
    if ((margin != "") != (type trait != "")) fault(at, name " stands neither in a file nor in an impl")
    head = ""
    signed = clauses = 0
    reads_signature(line)
}

function reads_head(line) {
    if (line == margin "{" && trait == "") ends_head()
    else if (has(line, "fn")) stops_head("its opening brace is missing where it is expected")
    else if (signed) reads_clause(line)
    else reads_signature(line)
}

# a signature goes on to the end of the line with the parenthesis that closes the parameters
function reads_signature(line) {
    sub(/^ +/, "", line)
    head = head line " "
    if (head !~ /\)/) return
    signed = 1
    sub(/ $/, "", head)
    if (head !~ /^[^()]*\([^()]*\)( -> [^(){}]+)?( \{\}?)?$/ || has(head, "(requires|ensures)")) stops_head("its head is not read: " head)
    else if (trait != "" && head ~ /[{;]/) stops_head("a function of a public trait has a body, or no ensures: " head)
    else if (sub(/ \{\}?$/, "", head)) ends_head()
}

function reads_clause(line) {
    sub(/^ +/, "", line)
    if (line ~ /^(requires|ensures)\*?( [a-z][a-z0-9_]*)? \{.*\}$/) clause[++clauses] = line
    else if (trait != "" && line ~ /^(requires|ensures)\*?( [a-z][a-z0-9_]*)? \{.*\};$/) {
        clause[++clauses] = line
        ends_method()
    }
    else stops_head("a line of its head is not read: " line)
}

function stops_head(why) {
    fault(at, crate "::" name ": " why)
    head = ""
}

# a function is known by its key, crate-function or crate-Type-method, and by its place,
# crate::module::function
function ends_head(    key, member) {
    member = type == "" ? name : type "::" name
    key = crate "-" member
    sub(/::/, "-", key)
    if (key in function_at) fault(at, crate "::" member ": another function has the key " key)
    function_at[key] = at
    keys[++functions] = key
    label[key] = crate "::" member
    place[key] = crate "::" (module == "" ? "" : module "::") member
    gsub(/\./, "::", place[key])
    if (!(crate in static)) at_place[place[key]] = key
    sub(/::/, ".", member)
    path[key] = "Rattle." crate ".specs.contracts." (module == "" ? "" : module ".") member
    result[key] = named(head, ".*\\)( -> )?\\[?")
    signature[key] = one_line(head)
    reads_parameters(key)
    if (of == "") reads_promise(key)
    else implements(key)
    head = ""
    if (crate in static) begins_body(key)
}

# a head as it reads where it is not broken into lines
function one_line(text) {
    sub(/\( /, "(", text)
    sub(/, \)/, ")", text)
    return text
}

# ---- the body of an export

function begins_body(key) {
    exports++
    exported = key
    body[key] = calls[key] = ""
}

function reads_body(line) {
    if (line == margin "}") ends_body(exported)
    else {
        sub(/^ +/, "", line)
        if (line != "") body[exported] = body[exported] (body[exported] == "" ? "" : " ") line
    }
}

# what it calls, if that is all that it does
function ends_body(key,    text, args, i, way, first) {
    for (i = 1; i <= count[key]; i++) args = args (i > 1 ? ", " : "") named_so[key, i]
    text = body[key]
    exported = ""
    if (!ends(text, "(" args ")")) return
    way = substr(text, 1, length(text) - length(args) - 2)
    if (way !~ /^[a-z0-9_:]+$/) return
    first = way
    sub(/::.*/, "", first)
    if ((FILENAME, first) in brought) way = brought[FILENAME, first] substr(way, length(first) + 1)
    calls[key] = way
}

BEGIN {
    # what antt reserves, and a clause quotes
    reserved = "^(data|record|deriving|module|where|use|mod|pub|package|open|as|unfoldable|abbrev|axiom|unfold|unfolding|ruleset|mutual|infix|infixl|infixr|elim|let|in|do|coe|fcoe|tcoe|hcom|com)$"
}

# each parameter's name, as a clause writes it, and how it is passed: by value, lent, or lent to be
# changed
function reads_parameters(key,    text, i, part) {
    text = head
    sub(/^[^(]*\( */, "", text)
    sub(/,? *\).*/, "", text)
    count[key] = split(text, part, /, */)
    for (i = 1; i <= count[key]; i++) {
        how[key, i] = part[i] ~ /(^|: )&('[a-z]+ )?mut / ? "changed" : part[i] ~ /(^|: )&/ ? "lent" : "value"
        sub(/^(&('[a-z]+ )?)?(mut )?/, "", part[i])
        if (part[i] !~ /^(self|[a-z][a-z0-9_]*: .+)$/) fault(at, label[key] ": a parameter is not read: " part[i])
        sub(/:.*/, "", part[i])
        if (part[i] ~ /^(r|result)$/) fault(at, label[key] ": a parameter is named " part[i] ", as the result is")
        named_so[key, i] = part[i]
        parameter[key, i] = part[i] ~ reserved ? "«" part[i] "»" : part[i]
    }
}

# ---- its promise

# the parameters in their order, each after a blank; after one that is lent, and one that is lent to
# be changed, what is read of it
function arguments(key, lent, changed,    i, text) {
    for (i = 1; i <= count[key]; i++) text = text " " parameter[key, i] (how[key, i] == "lent" ? lent : how[key, i] == "changed" ? changed : "")
    return text
}

# the parameters that are lent to be changed
function later(key, end,    i, text) {
    for (i = 1; i <= count[key]; i++) if (how[key, i] == "changed") text = text " " parameter[key, i] end
    return text
}

function changes(key) {
    return later(key, "") != ""
}

function reads_promise(key,    i, args, said, cited) {
    for (i = 1; i <= clauses; i++) if (clause[i] ~ /^requires/) fault(at, label[key] " has a requires: " clause[i])
    if (clauses != 1 || clause[1] ~ /^requires/) {
        fault(at, label[key] " has not just one ensures")
        return
    }
    if (later(key, "") ~ / .* /) fault(at, label[key] ": more than one parameter is lent to be changed:" later(key, ""))
    args = arguments(key, ".now", ".old")
    said = clause[1]
    sub(/^ensures [a-z][a-z0-9_]* /, "ensures ", said)
    cited = between(said, "ensures { result ≡ ", args " }")
    equation[key] = cited != ""
    if (cited == "") cited = between(said, "ensures { ", args " result" later(key, ".new") " }")
    if (cited == "") fault(at, label[key] ": its ensures is not one name applied to" args ": " clause[1])
    else if (equation[key] && changes(key)) fault(at, label[key] ": its ensures says nothing of what it leaves in" later(key, "") ": " clause[1])
    else cites(key, cited)
    words[key] = clause[1]
}

# what it promises is its trait's ghost item, as the implementation gives it
function implements(key) {
    if (clauses) fault(at, label[key] " has clauses of its own, in the implementation of " of ": " clause[1])
    if (crate in static) fault(at, label[key] " implements " of " in a static library")
    promise[key] = of
    equation[key] = implemented[key] = 1
}

function cites(key, cited,    i) {
    for (i = 1; i <= count[key]; i++) if (parameter[key, i] == cited) fault(at, label[key] ": its ensures cites its parameter " cited)
    if (equation[key]) holds_name(FILENAME, "Rattle.std.specs.Prelude", "◌≡◌")
    cited = meaning(FILENAME, cited)
    if (cited ~ /^Rattle\.[^ .]+\.specs\.[^ ]+$/) promise[key] = cited
    else fault(at, label[key] ": its ensures cites " cited)
}
