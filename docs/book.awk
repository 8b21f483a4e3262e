# Read by ./book. `part` says what the file at hand is read for: the code, the definitions, the proofs, and last docs/book.order, whose
# lines say what is written where. A byte above 127 belongs to a letter like ℕ (./book sets LC_ALL=C).

BEGIN { WIDTH = 160 }

function amiss(what) {
    print "book: " what >"/dev/stderr"
    wrong++
}

# ---- text

function trim(text) {
    sub(/^ +/, "", text)
    sub(/ +$/, "", text)
    return text
}

# the columns that the last line of a text takes
function columns(text) {
    sub(/^.*\n/, "", text)
    gsub(/[\200-\277]/, "", text)
    return length(text)
}

function indented(text) {
    gsub(/\n/, "\n    ", text)
    return "    " text
}

# how many brackets of a text are left open
function depth(text,    open) {
    open = gsub(/[({]/, "", text)
    return open - gsub(/[)}]/, "", text)
}

# split() by a text that is no pattern
function split_at(text, separator, each,    count, at) {
    count = 0
    while (at = index(text, separator)) {
        each[++count] = substr(text, 1, at - 1)
        text = substr(text, at + length(separator))
    }
    each[++count] = text
    return count
}

# the same, outside all brackets
function split_outside(text, separator, each,    count, piece, pieces, held, i) {
    pieces = split_at(text, separator, piece)
    count = 0
    held = ""
    for (i = 1; i <= pieces; i++) {
        held = held == "" ? piece[i] : held separator piece[i]
        if (depth(held) == 0) {
            each[++count] = held
            held = ""
        }
    }
    return count
}

function without_brackets(text) {
    return text ~ /^\(.*\)$/ ? substr(text, 2, length(text) - 2) : text
}

# a text, broken after a separator where it would be wider than this
function filled(text, separator, indent, width,    end, piece, pieces, i, line, result) {
    pieces = split_at(text, separator, piece)
    end = separator
    sub(/[ \001]+$/, "", end)
    line = piece[1]
    for (i = 2; i <= pieces; i++)
        if (columns(line separator piece[i] (i < pieces ? end : "")) <= width) line = line separator piece[i]
        else {
            result = result line end "\n"
            line = indent piece[i]
        }
    return result line
}

# the same: after a part of a record, else before an element of a list, or before what else must hold
function broken(text, indent, width) {
    if (!gsub(/; /, ";\001", text) && !gsub(/ ∷ /, "\001∷ ", text) && !gsub(/ && /, "\001\\&\\& ", text)) gsub(/\) \(/, ")\001(", text)
    text = filled(text, "\001", indent, width)
    gsub(/\001/, " ", text)
    return text
}

# the words of a text that may be names; a field (.name) is none
function words_in(text, each) {
    gsub(/\.[A-Za-z0-9_]+/, " ", text)
    gsub(/[^A-Za-z0-9_]/, " ", text)
    return split(text, each, " ")
}

# what stands between the first and the last of two brackets
function between(line) {
    sub(/^[^{]*\{/, "", line)
    sub(/\}[^}]*$/, "", line)
    return line
}

# of `Rattle.refusal.specs.declared.Refusal`, as in `use .. as why`, the type
function last_part(path) {
    sub(/^.*\./, "", path)
    return path
}

# `use Rattle.machine.specs.Machine.{PC, held}`: in this file the names are those of machine/Machine
function import(line, into,    crate, file, count, name, i) {
    crate = line
    sub(/^.*Rattle\./, "", crate)
    sub(/[^a-z_].*/, "", crate)
    file = line
    sub(/^.*\.specs\./, "", file)
    sub(/\..*/, "", file)
    count = split(between(line), name, ", ")
    for (i = 1; i <= count; i++) meaning[into, name[i]] = crate "/" file
}

# the words of the library that the definitions use; of an operator without the signs for where its arguments go
function note_words(names,    count, name, i) {
    gsub(/◌|,/, " ", names)
    count = split(names, name, " ")
    for (i = 1; i <= count; i++) library[name[i]] = key
}

FNR == 1 && part != "order" {
    pieces = split(FILENAME, piece, "/")
    crate = piece[2]
    key = piece[pieces]
    sub(/\.[a-z]*$/, "", key)
    key = crate "/" key
}

# ---- the code: types, and contracts

(part == "types" || part == "code") && FNR == 1 {
    module = FILENAME
    sub(/^crates\/[^\/]*\/src\//, "::", module)
    sub(/(::lib|::main)?\.rt$/, "", module)
    gsub(/\//, "::", module)
    module = crate module
    holder = trait = note = ""
}
part == "types" && /^pub (struct|enum) / {
    type = $3
    sub(/[^A-Za-z0-9].*/, "", type)
    home[crate, type] = module
}
part == "code" && /^pub mod / {
    opened[module "::" substr($3, 1, length($3) - 1)]
}
part == "code" && /^ghost use Rattle\.[a-z_]+\.specs\.[A-Z].*\{/ { import($0, FILENAME) }
part == "code" && /^#\[/ { next }
part == "code" && /^\/\/ / {
    note = (note == "" ? "" : note " ") substr($0, 4)
    next
}
part == "code" && /^pub (struct|enum) / {
    type = $3
    sub(/[^A-Za-z0-9].*/, "", type)
    if (type in type_text) amiss(type ": two types of that name")
    type_text[type] = ""
    type_note[type] = note
    in_type = 1
}
part == "code" { note = "" }
in_type {
    line = $0
    gsub(/pub /, "", line)
    sub(/,$/, "", line)
    type_text[type] = type_text[type] (type_text[type] == "" ? "" : "\n") line
    if (/^}|;$/) in_type = 0
}
part == "code" && /^impl/ {
    holder = $0
    sub(/^impl(<[^>]*>)? /, "", holder)
    trait = holder ~ / for /
    sub(/^.* for /, "", holder)
    sub(/[^A-Za-z0-9].*/, "", holder)
    owner = !trait ? module : (crate, holder) in home ? home[crate, holder] : crate
    holder = "::" holder
    split("", gives)
}
part == "code" && /^}/ { holder = trait = "" }
# in an `impl` of a trait the ghost member `METHOD_gives` says what a method answers
part == "code" && /^    ghost [a-z_]+_gives = / {
    line = $2
    sub(/_gives$/, "", line)
    gives[line] = contract_of($0)
}
part == "code" && /^ *(pub )?(extern "C" )?fn / { contract = "" }
part == "code" && /^ *(pub )?(extern "C" )?fn /, /\{$/ {
    contract = contract (contract == "" ? "" : " ") trim($0)
    if (/\{$/) take_contract(contract)
}

# ` { λ a r. r ≡ f a };` says of a method that its result is f a
function contract_of(line,    at, count, name, end) {
    if (!sub(/^.*_gives = \{ λ /, "", line) || !sub(/ \};$/, "", line)) return ""
    at = index(line, ". ")
    count = split(substr(line, 1, at - 1), name, " ")
    line = substr(line, at + 2)
    end = name[count] " ≡ "
    if (index(line, end) != 1) return ""
    line = substr(line, length(end) + 1)
    return line ~ ("(^|[^A-Za-z0-9_.])" name[count] "([^A-Za-z0-9_]|$)") ? "" : "ensures { result ≡ " line " }"
}

function take_contract(contract,    name, count, word, i, own, cited) {
    name = contract
    sub(/^.*fn /, "", name)
    sub(/[^A-Za-z0-9_].*/, "", name)
    if (trait && name in gives) contract = substr(contract, 1, length(contract) - 1) gives[name] " {"
    name = (holder == "" ? module : owner holder) "::" name
    contracts[name] = contract
    if (contract ~ /^pub /) module_of[name] = module
    if (trait) module_of[name] = crate
    take_arguments(contract, own)
    if (!index(contract, " ensures ")) return
    contract = substr(contract, index(contract, " ensures "))
    count = words_in(contract, word)
    for (i = 1; i <= count; i++)
        if ((FILENAME, word[i]) in meaning && !(word[i] in own)) {
            cited = meaning[FILENAME, word[i]] SUBSEP word[i]
            own[word[i]]
            promised[cited] = promised[cited] ", " name
        }
}

# the names of a function's arguments: in its contract they are no definitions
function take_arguments(head, own) {
    sub(/ (requires|ensures) .*/, "", head)
    while (match(head, /[a-z_0-9]+: /)) {
        own[substr(head, RSTART, RLENGTH - 2)]
        head = substr(head, RSTART + RLENGTH)
    }
}

# ---- the definitions

part == "specs" && FNR == 1 { comment = name = "" }
part == "specs" && /^use / {
    if (comment != "") head_of[key] = comment
    comment = ""
    if (/Rattle\.[a-z_]+\.specs\.declared\./ && !/TheVariants/) spoken[key] = spoken[key] " " (/ as [A-Za-z]+$/ ? last_part($2) : between($0))
    if (/Rattle\.[a-z_]+\.specs\.[A-Z]/) import($0, key)
    if (/^use (Rattle\.std|mathlib)\./) note_words(between($0))
}
part == "specs" && /^(use |pub mod |infix)/ { next }
part == "specs" { files[key] }
part == "specs" && /^$/ {
    if (comment != "") amiss(FILENAME ":" FNR ": a comment above nothing")
    comment = name = ""
    next
}
part == "specs" && /^-- / {
    comment = comment (comment == "" ? "" : "\n") substr($0, 4)
    next
}
part == "specs" && /^(abbrev |unfoldable )?pub / {
    line = $0
    sub(/^(abbrev |unfoldable )?pub /, "", line)
    name = line
    sub(/^(record|data) /, "", name)
    sub(/ .*/, "", name)
    if ((key, name) in text_of) amiss(key ": " name ": defined twice")
    defined[key, ++defined[key]] = name
    homes[name] = homes[name] " " key
    comment_of[key, name] = comment
    text_of[key, name] = line
    comment = ""
    next
}
part == "specs" {
    if (name == "") amiss(FILENAME ":" FNR ": of no definition")
    line = $0
    sub(/^  pub /, "  ", line)
    text_of[key, name] = text_of[key, name] "\n" line
}

# ---- the proofs: only what they state

part == "proofs" && /^pub [a-z0-9_]+ : / {
    theorem = $2
    statement_of[key, theorem] = substr($0, 5 + length(theorem) + 3)
    words_in(statement_of[key, theorem], word)
    proved[crate, word[1]] = proved[crate, word[1]] " " key " " theorem
    next
}
part == "proofs" && theorem != "" && /^    / {
    statement_of[key, theorem] = statement_of[key, theorem] "\n" substr($0, 5)
    next
}
part == "proofs" { theorem = "" }

# ---- a definition as it is written

function definition(id,    text, lines, line) {
    text = text_of[id]
    if (text ~ /^(record|data) /) return declaration(text)
    if (text ~ /--/) return text
    lines = split_at(text, "\n", line)
    return equations(substr(id, index(id, SUBSEP) + 1), line, lines)
}

# a record's fields in one line, where they fit
function declaration(text,    joined) {
    if (text !~ /^(record|data) [^ ]+ \(/) sub(/ : Type 0 where/, " where", text)
    joined = text
    sub(/ where\n */, " where { ", joined)
    gsub(/\n */, "; ", joined)
    joined = joined " }"
    return text ~ /^record/ && text !~ /--/ && columns(joined) <= WIDTH - 4 ? joined : text
}

# The signature and the equations. One equation of plain arguments is written with the types of these; cases that come to the same
# are written as one; short cases stand beside each other.
function equations(name, line, lines,    count, left, right, i, at, arguments, argument, result) {
    count = 0
    for (i = 2; i <= lines; i++)
        if (line[i] ~ /^[^ })]/) {
            at = index(line[i], " =")
            left[++count] = substr(line[i], 1, at - 1)
            right[count] = trim(substr(line[i], at + 2))
        } else right[count] = right[count] (right[count] == "" ? "" : "\n") line[i]
    for (i = 1; i <= count; i++) right[i] = tightened(right[i])
    arguments = split_outside(left[1], " ", argument)
    if (count == 1 && argument[1] == name && is_plain(argument, arguments) && line[1] !~ /\{/)
        return equation(headed(line[1], argument, arguments), right[1])
    count = merged(name, left, right, count)
    result = beside(left, right, count)
    if (result !~ /\n/ && columns(line[1] ";  " result) <= 100) return line[1] ";  " result
    return line[1] "\n" result
}

# equations that are short stand beside each other
function beside(left, right, count,    i, one, short, was_short, result) {
    for (i = 1; i <= count; i++) {
        one = equation(left[i], right[i])
        short = one !~ /\n/ && columns(one) <= WIDTH / 2
        if (i == 1) result = one
        else if (short && was_short && columns(result ";  " one) <= WIDTH - 4) result = result ";  " one
        else result = result (was_short && short ? ";" : "") "\n" one
        was_short = short
    }
    return result
}

function is_plain(argument, arguments,    i) {
    for (i = 2; i <= arguments; i++) if (argument[i] !~ /^[A-Za-z][A-Za-z0-9_]*$/) return 0
    return 1
}

# `name (a b : A) (c : C) : D`, of `name : A → A → C → D` and the arguments of its equation
function headed(signature, argument, arguments,    at, types, type, i, head, result) {
    at = index(signature, " : ")
    head = substr(signature, 1, at - 1)
    types = split_outside(substr(signature, at + 3), " → ", type)
    for (i = 2; i <= arguments; i++) {
        if (i == 2 || type[i - 1] != type[i - 2]) head = head " (" argument[i]
        else head = head " " argument[i]
        if (i == arguments || type[i] != type[i - 1]) head = head " : " without_brackets(type[i - 1]) ")"
    }
    result = type[arguments]
    for (i = arguments + 1; i <= types; i++) result = result " → " type[i]
    return head " : " result
}

# a body in one line where it fits, or is a record; else as it was
function tightened(text,    joined) {
    joined = trim(text)
    gsub(/\n */, " ", joined)
    gsub(/; *\}/, " }", joined)
    return columns(joined) <= WIDTH - 8 || text ~ /\{\n/ || text !~ /\n/ ? joined : text
}

function equation(left, right,    line) {
    if (right ~ /\n/) return left " =\n" (right ~ /^ / ? "" : "    ") right
    line = left " = " right
    if (columns(line) <= WIDTH - 4) return line
    if (columns(right) <= WIDTH - 8) return left " =\n    " right
    if (columns(left) < 20) return broken(line, "      ", WIDTH - 4)
    return left " =\n" broken("    " right, "      ", WIDTH - 4)
}

# Equations that differ in one argument, a case of its own in each, and come to the same are one, with `|` between the cases.
function merged(name, left, right, count,    i, k, at, size, first, second, seen, mine, kept, to) {
    at = 0
    for (i = 1; i <= count; i++) {
        if (left[i] !~ ("^" name " ")) return count
        size = split_outside(left[i], " ", second)
        if (i == 1) split_outside(left[1], " ", first)
        for (k = 2; k <= size; k++)
            if (first[k] != second[k]) {
                if (at && at != k) return count
                at = k
            }
    }
    if (!at) return count
    for (i = 1; i <= count; i++) {
        split_outside(left[i], " ", second)
        mine[i] = without_brackets(second[at])
        split(mine[i], second, " ")
        if (second[1] in seen) return count
        seen[second[1]]
    }
    kept = 0
    for (i = 1; i <= count; i++)
        if (right[i] in to) mine[to[right[i]]] = mine[to[right[i]]] " | " mine[i]
        else {
            to[right[i]] = ++kept
            right[kept] = right[i]
            mine[kept] = mine[i]
        }
    for (i = 1; i <= kept; i++) {
        first[at] = mine[i] ~ / / ? "(" mine[i] ")" : mine[i]
        left[i] = name
        for (k = 2; k <= size; k++) left[i] = left[i] " " first[k]
        if (columns(left[i]) > WIDTH - 4) left[i] = filled(left[i], " | ", "    ", WIDTH - 4)
    }
    return kept
}

# ---- what is written

function put(text) {
    if (left_out) return
    book = book text "\n"
    lines_put += gsub(/\n/, "\n", text) + 1
}

function gap() {
    if (!left_out && book !~ /(^|\n\n|(^|\n)#[^\n]*\n)$/) put("")
}

# a definition under its comment, with the promises that cite it at the end of its first line or of the comment
function put_definition(id,    text, note, at, first, comment) {
    comment = with_kind(comment_of[id])
    note = cited_by(id)
    text = definition(id)
    at = index(text, "\n")
    first = at ? substr(text, 1, at - 1) : text
    if (note != "")
        if (columns(first "    " note) <= WIDTH - 4) text = first "    " note substr(text, length(first) + 1)
        else if (comment != "" && columns(comment "    " note) <= WIDTH) comment = comment "    " note
        else text = text "\n" filled("    " note, ", ", "     ", WIDTH - 4)
    if (comment != "") put(comment)
    put(indented(text))
    if (!left_out) definitions++
}

# a comment that begins with a kind's number alone
function with_kind(text) {
    sub(/^[01][0-9A-F]($|[:,\n])/, "kind &", text)
    return text
}

# Can another crate call it? Not where a module is not `pub mod` all the way.
function is_public(name,    place) {
    if (!(name in module_of)) return 0
    for (place = module_of[name]; place ~ /::/; sub(/::[^:]*$/, "", place)) if (!(place in opened)) return 0
    return 1
}

# the public functions whose promise names a definition, and the theorem that states it
function cited_by(id,    note, key, name, crate, count, piece, i) {
    note = ""
    count = split(promised[id], piece, ", ")
    for (i = 2; i <= count; i++) if (is_public(piece[i])) note = note ", " piece[i]
    key = substr(id, 1, index(id, SUBSEP) - 1)
    name = substr(id, index(id, SUBSEP) + 1)
    crate = substr(key, 1, index(key, "/") - 1)
    if (text_of[id] ~ / : (.* → )?Type 0/) {
        count = split(proved[crate, name], piece, " ")
        for (i = 1; i < count; i += 2)
            if (statement_of[piece[i], piece[i + 1]] ~ ("^" name "( [a-z_]+)?$")) {
                note = note ", theorem " crate "::" piece[i + 1]
                if (statement_of[piece[i], piece[i + 1]] != name) note = note " : " statement_of[piece[i], piece[i + 1]]
            }
    }
    return note == "" ? "" : "[" substr(note, 3) "]"
}

function put_type(type,    text, note) {
    text = type_text[type]
    note = with_kind(type_note[type])
    if (text ~ /\/\//) text = with_notes_after(text)
    else {
        gsub(/\n */, ", ", text)
        sub(/\{,/, "{", text)
        sub(/, \}/, " }", text)
        sub(/;$/, "", text)
    }
    if (note != "" && text !~ /\n/ && columns(text note) + 7 <= WIDTH - 4) text = text "    -- " note
    else if (note != "") put(note)
    put(indented(text ~ /\n/ ? text : filled(text, ", ", "  ", WIDTH - 4)))
}

# the comment in a type after the case that it stands above
function with_notes_after(text,    count, line, i, note, result) {
    count = split_at(text, "\n", line)
    for (i = 1; i <= count; i++)
        if (line[i] ~ /^ *\/\//) {
            note = line[i]
            sub(/^ *\/\//, "    --", note)
        } else {
            result = result (i > 1 ? "\n" : "") line[i] note
            note = ""
        }
    return result
}

# a function's head, and what it promises of its result
function put_promise(name,    head, at, contract) {
    head = contracts[name]
    at = index(head, " ensures { ")
    contract = substr(head, at + length(" ensures { "))
    head = substr(head, 1, at - 1)
    sub(/^.*fn [a-z_]*/, "", head)
    gsub(/\( /, "(", head)
    gsub(/, \)/, ")", head)
    if (!at || !sub(/ \} \{$/, "", contract) || contract ~ / ensures / || contracts[name] ~ / requires /) amiss(name ": no promise for every input")
    if (was_promise != book) gap()
    put(filled("Promise of " name head ":", ", ", "    ", WIDTH))
    at = index(contract, " ≡ ")
    if (columns(contract) > WIDTH - 4)
        contract = substr(contract, 1, at - 1) "\n  " broken(substr(contract, at + 1), "    ", WIDTH - 6)
    put(indented(contract))
    was_promise = book
}

# ---- the order

part == "order" && /^(#|$)/ { next }
part == "order" && /^  / && entries {
    entry[entries] = entry[entries] " " trim($0)
    next
}
part == "order" {
    entry[++entries] = $0
    entry_line[entries] = FNR
}

END {
    if (part != "order" || !entries) exit 1
    settle()
    for (i = 1; i <= entries; i++) write(i)
    if (was ~ /^[=-]$/) missing(entries, "nothing under this heading")
    check_all()
    if (wrong) {
        print "book: " wrong " amiss" >"/dev/stderr"
        exit 1
    }
    printf "%s", book
    print "book: " definitions " definitions, " lines_put " lines" >"/dev/stderr"
}

function missing(i, what) {
    amiss("docs/book.order:" entry_line[i] ": " what)
}

# which definition stands in which section
function settle(    i, k, count, word, id, chapter, section, place) {
    for (i = 1; i <= entries; i++) {
        count = split(entry[i], word, " ")
        if (word[1] == "=") {
            place = ++chapter
            section = 0
        } else if (word[1] == "-") place = chapter "." ++section
        else if (word[1] == "alone") alone[chapter]
        else if (word[1] == "spec") {
            if (!(word[2] in files)) missing(i, word[2] ": no such file of specs/")
            if (count == 2) {
                entry[i] = entry[i] " head"
                for (k = 1; k <= defined[word[2]]; k++) entry[i] = entry[i] " " defined[word[2], k]
                count = split(entry[i], word, " ")
            }
            for (k = 3; k <= count; k++) {
                id = word[2] SUBSEP word[k]
                if (word[k] == "head") heads[word[2]]++
                else if (!(id in text_of)) missing(i, word[2] ": " word[k] ": no such definition")
                else if (id in place_of) missing(i, word[2] ": " word[k] ": a second time")
                else {
                    place_of[id] = place
                    rank_of[id] = ++ranks
                }
            }
        }
        place_at[i] = place
    }
}

function write(i,    count, word, k) {
    count = split(entry[i], word, " ")
    left_out = !code && int(place_at[i]) in alone
    if (was == "-" && word[1] ~ /^[=-]$/ || was == "=" && word[1] == "=") missing(i - 1, "nothing under this heading")
    if (word[1] == ">") {
        if (was != ">") gap()
        put(substr(entry[i], 3))
        names_in_text(i)
    } else if (was ~ /^(>|theorem)$/) gap()
    was = word[1]
    if (was == "=") {
        gap()
        put("# " place_at[i] ". " substr(entry[i], 3))
    } else if (was == "-") {
        if (book !~ /\n# [^\n]*\n$/) gap()
        put("## " place_at[i] " " substr(entry[i], 3))
    } else if (was == "type")
        for (k = 2; k <= count; k++) {
            if (!(word[k] in type_text)) missing(i, word[k] ": no such type of crates/*/src")
            else if (word[k] in shown) missing(i, word[k] ": a second time")
            else put_type(word[k])
            shown[word[k]]
        }
    else if (was == "spec")
        for (k = 3; k <= count; k++) {
            if (word[k] == "head" && head_of[word[2]] != "") {
                gap()
                put(head_of[word[2]])
            } else if ((word[2], word[k]) in text_of) put_definition(word[2] SUBSEP word[k])
        }
    else if (was == "promise")
        for (k = 2; k <= count; k++) {
            if (word[k] in contracts) put_promise(word[k])
            else missing(i, word[k] ": no such function")
        }
    else if (was == "theorem")
        for (k = 3; k <= count; k++) {
            if (!((word[2], word[k]) in statement_of)) missing(i, word[2] ": " word[k] ": no such theorem")
            gap()
            put("Theorem " substr(word[2], 1, index(word[2], "/") - 1) "::" word[k] ":")
            put(indented(statement_of[word[2], word[k]]))
        }
    else if (was !~ /^(>|alone)$/) missing(i, was ": not known")
}

# a name between backquotes is one that the book has
function names_in_text(i,    count, word, k) {
    count = split(entry[i], word, "`")
    for (k = 2; k <= count; k += 2) if (first_home(word[k]) == "") missing(i, word[k] ": no definition of the book")
}

# ---- that the book is whole

function check_all(    key, k, count, word, id) {
    for (key in files) {
        for (k = 1; k <= defined[key]; k++)
            if (!((key, defined[key, k]) in place_of)) amiss(key ": " defined[key, k] ": under no heading of docs/book.order")
        if (key in head_of && heads[key] != 1) amiss(key ": its head is " heads[key] + 0 " times in docs/book.order")
        count = split(spoken[key], word, /[ ,]+/)
        for (k = 1; k <= count; k++)
            if (word[k] != "" && !(word[k] in shown)) {
                amiss(key ": speaks of " word[k] ", a type under no heading of docs/book.order")
                shown[word[k]]
            }
    }
    for (id in place_of) {
        check_names(id)
        check_alone(id)
    }
    check_notation()
}

# The text before the first chapter says how each word of the library is to be read.
function check_notation(    i, count, word, k, told) {
    for (i = 1; entry[i] ~ /^>/; i++) {
        count = split(entry[i], word, /[ ,;:]+|\.( |$)|[()]/)
        for (k = 1; k <= count; k++) told[word[k]]
    }
    for (k in library) if (!(k in told)) amiss(library[k] ": uses " k ", which the notation of docs/book.order does not tell")
}

# A name has one definition.
function check_names(id,    name, count, home, k, times) {
    name = substr(id, index(id, SUBSEP) + 1)
    count = split(homes[name], home, " ")
    for (k = 1; k <= count; k++) if ((home[k], name) in place_of) times++
    if (times > 1) amiss(name ": " times " definitions of that name:" homes[name])
}

# Nothing outside a chapter for itself names what is in it.
function check_alone(id,    key, count, word, k, meant) {
    key = substr(id, 1, index(id, SUBSEP) - 1)
    count = words_in(text_of[id], word)
    for (k = 1; k <= count; k++) {
        meant = meaning[key, word[k]] SUBSEP word[k]
        if (meant in place_of && int(place_of[meant]) in alone && int(place_of[meant]) != int(place_of[id]))
            amiss(key ": " substr(id, index(id, SUBSEP) + 1) ": names " word[k] ", which stands in a chapter for itself")
    }
}

function first_home(name,    count, home, k) {
    count = split(homes[name], home, " ")
    for (k = 1; k <= count; k++) if ((home[k], name) in place_of) return home[k]
    return ""
}
