# Read by tests/promises. `part` says what the file at hand is read for: the tree's files, the lines of the edge values, the definitions, the
# code, and last docs/PROMISES.md, whose words are looked up in what was read before.

BEGIN {
    EDITS = "^(must-fail edits|first|second)$"
    TITLES = "^(phrase of 0[12]|definition|promise|function|must-fail edits|first|second|test|crate|A|B|C|teller|why|at|tried|edits|seconds|refused|not refused|tried how|how)$"
}

function amiss(what) {
    wrong++
    print what
}

function missing(word, what) {
    amiss(FILENAME ":" FNR ": " column ": " word ": " what)
}

# ---- what there is

part == "files" {
    there[$0]
    pieces = split($0, piece, "/")
    name = piece[pieces]
    sub(/\.[a-z]*$/, "", name)
    if (/^crates\/[^\/]*\/src\//) crates[piece[2]]
    if (/^crates\/[^\/]*\/specs\//) {
        specs[piece[2] "/" name] = specs[name] = $0
        alike[name]++
    }
    if (/\.edit$/) {
        crate = piece[2] == "edits" ? piece[3] : piece[2]
        if (!((crate "/" name) in edits)) labels[name]++
        edits[crate "/" name] = $0
        edit_of[name] = crate "/" name
        edited[crate]
    }
}

part == "edges" { lines[$1] }

part == "definitions" { text_of[FILENAME] = text_of[FILENAME] $0 "\n" }
part == "definitions" && /^[A-Za-z]/ {
    for (i = 1; $i ~ /^(abbrev|unfoldable|pub|record|data)$/; i++);
    if ($(i + 1) == ":" || /^pub (record|data) /) defined[FILENAME, $i]
    if (is_maker($0)) makers[$1]
}

# `name a b = record { f = a; g = b }`: what it makes is equal only where all the parts are
function is_maker(line,    at, names, name, fields, field, i) {
    at = index(line, " = record { ")
    if (!at || !sub(/ \}$/, "", line)) return 0
    names = split(substr(line, 1, at - 1), name, " ")
    fields = split(substr(line, at + 12), field, "; ")
    for (i = 1; i <= fields; i++) {
        sub(/^[^ ]* = /, "", field[i])
        if (field[i] != name[i + 1]) return 0
    }
    return names == fields + 1
}

# ---- the code

(part == "types" || part == "code") && FNR == 1 {
    split(FILENAME, piece, "/")
    module = FILENAME
    sub(/^crates\/[^\/]*\/src\//, "::", module)
    sub(/(::lib|::main)?\.rt$/, "", module)
    gsub(/\//, "::", module)
    module = piece[2] module
    modules[module]
    type = trait = ""
}
part == "types" && /^pub (struct|enum) / { home[piece[2], word_of($3)] = module }
part == "code" && /^pub mod / { open[module "::" word_of($3)] }
part == "code" && /^pub (struct|enum) / {
    holder = word_of($3)
    types[holder]
}
part == "code" && /^    (pub )?[a-z_]+: &'[a-z]+ mut / { lent_in[holder] }
part == "code" && /^impl/ {
    type = $0
    sub(/^impl(<[^>]*>)? /, "", type)
    trait = type
    sub(/^.* for /, "", type)
    trait = type == trait ? "" : word_of(trait)
    type = word_of(type)
    owner = trait == "" ? module : (piece[2], type) in home ? home[piece[2], type] : piece[2]
    type = "::" type
    split("", gives)
}
part == "code" && /^}/ { type = trait = "" }
part == "code" && /^ *fn / && line_before ~ /^ *#\[test\]$/ { tests[word_of($2)] }
part == "code" { line_before = $0 }
# in an `impl` of a trait the ghost member `METHOD_gives` says what a method answers
part == "code" && /^    ghost [a-z_]+_gives = / {
    name = $2
    sub(/_gives$/, "", name)
    gives[name] = contract_of($0)
}
part == "code" && /^ *pub const / { put(module type "::" word_of($3)) }
part == "code" && /^ *(pub )?(extern "C" )?fn / { head = "" }
part == "code" && /^ *(pub )?(extern "C" )?fn /, /\{$/ {
    head = head $0
    if (/\{$/) {
        name = head
        sub(/^.*fn /, "", name)
        name = word_of(name)
        if (trait != "" && name in gives) head = substr(head, 1, length(head) - 1) gives[name] " {"
        name = (type == "" ? module : owner type) "::" name
        put(name)
        heads[name] = head
        if (head ~ /^ *pub /) public[name] = module
        if (trait != "") of_trait[name]
    }
}

# ` { λ a r. r ≡ f a };` says of a method that its result is f a
function contract_of(line,    at, count, name, end) {
    if (!sub(/^.*_gives = \{ λ /, "", line) || !sub(/ \};$/, "", line)) return ""
    at = index(line, ". ")
    count = split(substr(line, 1, at - 1), name, " ")
    line = substr(line, at + 2)
    end = name[count] " ≡ "
    if (index(line, end) != 1) return ""
    line = substr(line, length(end) + 1)
    return line ~ ("(^|[^A-Za-z0-9_.])" name[count] "([^A-Za-z0-9_]|$)") ? "" : "ensures { result ≡ " line " }"
}

function word_of(text) {
    sub(/[^A-Za-z0-9_].*/, "", text)
    return text
}

# A function's whole name is crate::module::Type::name; an ending of it will do, if no other has that.
function put(name,    ending) {
    ending = name
    do {
        known[ending]++
        whole[ending] = name
    } while (sub(/^[^:]*::/, "", ending))
}

# Can another crate call it? Not in a program, nor in a module that is not `pub mod` all the way; what a trait gives a type it always can.
function is_public(name,    place) {
    if (name in of_trait) return 1
    if (!(name in public)) return 0
    for (place = public[name]; place ~ /::/; sub(/::[^:]*$/, "", place))
        if (!(place in open)) return 0
    return !(("crates/" place "/src/main.rt") in there)
}

# The shape of a function's contract: A and B as docs/PROMISES.md says, C for any other.
function shape(name,    head, at, contract, left, right, count, lent, maker) {
    head = heads[name]
    at = index(head, "ensures { ")
    if (!at || gsub(/ensures/, "&", head) > 1 || head ~ /requires/ || is_lent_inside(name)) return "C"
    contract = substr(head, at + length("ensures { "))
    head = substr(head, 1, at - 1)
    if (!sub(/ \} *\{$/, "", contract)) return "C"
    at = index(contract, " ≡ ")
    left = substr(contract, 1, at - 1)
    right = substr(contract, at + length(" ≡ "))
    if (!at || right ~ /\.new|×|→|⊎|∧|∨|≡/ || right ~ /(^|[^A-Za-z0-9_.])result([^A-Za-z0-9_]|$)/) return "C"
    left = told(left, answer_of(head))
    for (count = 0; match(head, /[a-z_]+: &('[a-z]+ )?mut /); count++) {
        lent = lent " " word_of(substr(head, RSTART)) ".new"
        head = substr(head, RSTART + RLENGTH)
    }
    if (!count) return left == "result" ? "A" : "C"
    if (head !~ / -> /) return count == 1 && " " left == lent ? "B" : "C"
    maker = left
    sub(/ .*/, "", maker)
    return maker in makers && left == maker " result" lent ? "B" : "C"
}

# `(x : T) → TELLER x result` or `MAKER (TELLER x result) memory.new`, of a teller as docs/PROMISES.md lists them, tells `result` apart: where
# the function answers what the teller's theorem speaks of
function told(left, answer,    before, after, name) {
    while (sub(/^\([a-z_]+ : [A-Z][a-z]+\) → /, "", left));
    for (name in tellers) if (tellers[name] == answer) {
        if (left ~ ("^" name "( [a-z_.]+)* result$") && left !~ /result.* result$/) return "result"
        if (match(left, " \\(" name "( [a-z_.]+)* result\\)")) {
            before = substr(left, 1, RSTART)
            after = substr(left, RSTART + RLENGTH)
            if ((before after) !~ /result/) return before "result" after
        }
    }
    return left
}

# The type that a function answers, and that of a theorem, as the same words
function answer_of(head) {
    if (!sub(/^.* -> /, "", head)) return ""
    gsub(/[a-z_]+::/, "", head)
    gsub(/\(\)/, " Unit ", head)
    return words_of(head)
}

function words_of(type) {
    gsub(/[A-Za-z]+\./, "", type)
    gsub(/[^A-Za-z0-9_]+/, " ", type)
    gsub(/^ | $/, "", type)
    return type
}

# May it change what a reference inside an argument lends?
function is_lent_inside(name,    type) {
    if (heads[name] ~ /&('[a-z]+ )?mut self/) return 1
    for (type in lent_in) if ((name "(" heads[name]) ~ ("[^A-Za-z]" type "[^A-Za-z]")) return 1
    return 0
}

# ---- docs/ARCHITECTURE.md and docs/PROVING.md: the functions, files and folders that they name

part == "guides" {
    column = "text"
    count = split($0, word, "`")
    for (i = 2; i <= count; i += 2)
        if (split(word[i], piece, "/") > 1 && piece[1] in crates && word[i] !~ /[ *]/) {
            if (!is_place("crates/" word[i])) missing(word[i], "no such file or folder")
        } else if (word[i] ~ /^[a-z_]+::[A-Za-z_:]+$/ && !(word[i] in modules)) {
            name = word[i]
            sub(/^.*::/, "", name)
            if (!(name in types)) look_up_function(word[i])
        }
}

# a file, with or without its ending, or a folder
function is_place(path,    one) {
    sub(/\/$/, "", path)
    if (path in there) return 1
    for (one in there) if (index(one, path) == 1 && substr(one, length(path) + 1) ~ /^(\/|\.[a-z]+$)/) return 1
    return 0
}

# ---- docs/PROMISES.md

part == "promises" && !/^\|/ {
    columns = 0
    column = "text"
    count = split($0, word, "`")
    for (i = 2; i <= count; i += 2)
        if (word[i] ~ /^[a-z_]+::/ && !(word[i] in modules)) look_up_function(word[i])
        else if (word[i] ~ /^[a-z_]+\/.*\.[a-z*]+$/) look_up_files(word[i])
}

part == "promises" && /^\|/ {
    gsub(/\\\|/, "/")
    count = split($0, cell, / *\| */)
    if (!columns) {
        columns = count
        for (i = 2; i < count; i++) {
            title[i] = column = cell[i]
            if (column !~ TITLES) missing("the title", "a column that is not known")
        }
    } else if (!/^\|---/) {
        rows++
        crate = teller = ""
        for (i = 2; i < count; i++) look_up(title[i], cell[i])
        column = "row"
        if (count != columns) missing("cells", count - 2 " of them, of " columns - 2)
    }
}

function look_up(title, cell,    count, word, i) {
    column = title
    spec = place = ""
    if (title == "test") look_up_test(cell)
    count = split(cell, word, "`")
    for (i = 2; i <= count; i += 2)
        if (title == "definition") look_up_definition(word[i], word[i + 1])
        else if (title == "promise" && word[i - 1] ~ /theorem $/) {
            look_up_theorem(word[i])
            if (teller != "") look_up_telling(word[i])
        } else if (title == "promise" || title == "function") look_up_function(word[i])
        else if (title ~ EDITS) look_up_edit(word[i])
        else if (title == "teller") {
            look_up_definition(word[i], word[i + 1])
            if (word[i + 1] !~ /^:/) teller = word[i]
        } else if (title == "crate") crate = word[i]
        else if (title ~ /^[ABC]$/) look_up_public(word[i], title)
}

# `a/{b,c}/d` is a/b/d and a/c/d
function expand(path, each,    at, end, count, i) {
    at = index(path, "{")
    end = index(path, "}")
    if (!at) return split(path, each, "\n")
    count = split(substr(path, at + 1, end - at - 1), each, ",")
    for (i = 1; i <= count; i++) each[i] = substr(path, 1, at - 1) each[i] substr(path, end + 1)
    return count
}

# `*` is any name
function is_there(path,    one) {
    if (path !~ /\*/) return path in there
    gsub(/\./, "\\.", path)
    gsub(/\*/, "[^/]*", path)
    for (one in there) if (one ~ ("^" path "$")) return 1
    return 0
}

# files under crates/, or by their whole path
function look_up_files(path,    count, each, i) {
    count = expand(path, each)
    for (i = 1; i <= count; i++)
        if (is_there("crates/" each[i]) || is_there(each[i])) files_named++
        else missing(each[i], "no such file")
}

function look_up_definition(word, after) {
    if (word ~ /\.antt$/) {
        spec = "crates/" word
        look_up_files(word)
    } else if (after ~ /^:/) {
        spec = specs[word]
        if (alike[word] > 1) missing(word, "several crates have it: write CRATE/" word)
        else if (spec == "") missing(word, "no such file of specs/")
        else files_named++
    } else if (spec == "" && word in types) definitions_named++
    else if ((spec, word) in defined || word ~ / / && index(text_of[spec], word)) definitions_named++
    else missing(word, spec == "" ? "no such type, and no file before it" : "not in " spec)
}

function look_up_function(word) {
    if (word ~ /::/) {
        place = word
        sub(/[^:]*$/, "", place)
    } else if (word !~ /^simbhoket_/) word = place word
    if (known[word] == 1) {
        functions_named++
        named[column, whole[word]]
        if (crate == "") crate = word_of(whole[word])
    } else missing(word, known[word] ? "several functions: write CRATE::" word : "no such function")
}

# a theorem is among the laws of some crate
function look_up_theorem(word,    file) {
    for (file in text_of)
        if (file ~ /\/proofs\// && (file, word) in defined) {
            definitions_named++
            return
        }
    missing(word, "no such theorem in crates/*/proofs")
}

# it says that any two answers of a type which the teller tells alike are the same, and has no other premise
function look_up_telling(word,    file, text, given, of) {
    of = teller "( [a-z]+)*"
    for (file in text_of) {
        text = text_of[file]
        if (!sub("^.*\npub " word " : ", "", text)) continue
        sub(/\n.*$/, "", text)
        if (!match(text, " → " of " a ≡ " of " b → a ≡ b$")) continue
        given = substr(text, 1, RSTART - 1)
        while (sub(/^\([a-z]+ : [A-Za-z.]+\) (→ )?/, "", given));
        if (given !~ /^\(a b : [^:]*\)$/ || given ~ /→|≡/) continue
        sub(/^\(a b : /, "", given)
        tellers[teller] = words_of(given)
        return
    }
    missing(word, "it does not say that `" teller "` tells two answers apart")
}

function look_up_edit(word) {
    if (word in labels && labels[word] > 1) missing(word, "edits of several crates: write CRATE/" word)
    else if (word in labels) named["edit", edit_of[word]]
    else if (word in edits) named["edit", word]
    else if (word !~ /^[a-z_]+\/.*\*/ || !is_edit_there(word)) missing(word, "no such edit")
}

# `crate/*` is all of a crate, and names none of them; `crate/a_*` names those in tests/edits/ whose label fits
function is_edit_there(pattern,    crate, name, found) {
    crate = pattern
    if (sub(/\/\*$/, "", crate)) return crate in edited
    gsub(/\*/, "[a-z0-9_]*", pattern)
    for (name in edits)
        if (name ~ ("^" pattern "$") && edits[name] ~ /^tests\//) {
            named["edit", name]
            found = 1
        }
    return found
}

# `steps; worked (..); LSL LSR at 32`: scripts or cases of tests/, or what lines of the edge values begin with; in backquotes a #[test] of a crate
function look_up_test(cell,    count, each, words, word, i, k) {
    gsub(/ *\([^)]*\)/, "", cell)
    count = split(cell, each, /; */)
    for (i = 1; i <= count; i++) {
        words = split(each[i], word, /,? /)
        for (k = 1; k <= words; k++)
            if (word[k] ~ /^[A-Z][A-Z0-9]*$/ && length(word[k]) < 8) {
                if (!(word[k] in lines)) missing(word[k], "no such line of the edge values")
            } else if (word[k] ~ /^`/) {
                if (!(substr(word[k], 2, length(word[k]) - 2) in tests)) missing(word[k], "no such #[test]")
            } else if (k == 1 && !is_there("tests/" word[k]) && !is_there("tests/" word[k] ".*")) missing(word[k], "no such test")
    }
}

function look_up_public(word, expected,    count, each, i, name) {
    count = expand(word, each)
    for (i = 1; i <= count; i++) {
        name = crate "::" each[i]
        if (!is_public(name)) missing(name, "no such public function")
        else if (shape(name) != expected) missing(name, "its shape is " shape(name))
        else of_shape[expected] += !(("list", name) in named)
        named["list", name]
    }
}

END {
    for (name in of_trait) public[name]
    for (name in public)
        if (is_public(name)) {
            if (!(("list", name) in named)) amiss(name ": a public function that is not in the list of \"One outcome\"")
            if (!(("promise", name) in named)) amiss(name ": a public function that no row has as a promise")
            if (!(("function", name) in named)) amiss(name ": a public function that is not in \"Two wrong answers\"")
        }
    for (name in edits) {
        if (("edit", name) in named) edits_named++
        else amiss(edits[name] ": an edit that docs/PROMISES.md does not name")
    }
    if (wrong) {
        print "promises: " wrong " amiss"
        exit 1
    }
    printf "promises: %d rows name %d files, %d definitions, %d functions and %d edits, all there; ", \
        rows, files_named, definitions_named, functions_named, edits_named
    printf "%d public functions, %d of shape A, %d of B, %d of C\n", \
        of_shape["A"] + of_shape["B"] + of_shape["C"], of_shape["A"], of_shape["B"], of_shape["C"]
}
