# Read by tests/book. First the book is read, definition by definition; then specs/: each definition is in the book as often as there, and
# every line of it is in what the book says of that name, but for blanks. A case may stand among others that come to the same.

function amiss(what) {
    wrong++
    print what
}

function tight(text) {
    gsub(/ /, "", text)
    return text
}

# ---- the book: `name : ..`, or `name (a b : A) (c : C) : D = ..`

part == "book" && /^# 1\. / { begun = 1 }
part == "book" && begun {
    head = $0
    sub(/ =( .*|$)/, "", head)
    if (/^[^ ]/ || /^    (struct|enum) /) name = ""
    else if (/^    (record|data) /) found[name = $2]++
    else if (/^    [A-Za-z]/ && head ~ / : /) found[name = $1]++
    said[name] = said[name] tight($0)
}

# ---- specs/

part == "specs" && /^(use |pub mod |infix|-- |$)/ { next }
part == "specs" && /^(abbrev |unfoldable )?pub / {
    for (i = 1; $i ~ /^(abbrev|unfoldable|pub|record|data)$/; i++);
    name = $i
    wanted[name]++
    definitions++
    next
}
part == "specs" {
    lines++
    line = $0
    sub(/ -- .*/, "", line)
    at = index(line, " =")
    if (/^[A-Za-z]/ && !is_case(substr(line, 1, at - 1), tight(substr(line, at + 2)))) missing()
    if (/^ +[^ -]/ && !is_said(line)) missing()
}

function missing() {
    amiss(FILENAME ":" FNR ": " name ": not in the book: " $0)
}

# a line further down; the last part of a record has no `;` in the book
function is_said(line) {
    line = tight(line)
    sub(/^pub/, "", line)
    if (index(said[name], line)) return 1
    sub(/;$/, "", line)
    return index(said[name], line)
}

# an equation: as it is; or of arguments that stand before the `:` with their types; or one of its arguments is a case among others
function is_case(left, right,    text, at, count, argument, i) {
    if (index(said[name], tight(left) "=" right)) return 1
    count = arguments(left, argument)
    for (i = 2; i <= count; i++)
        if (argument[i] ~ /^[^a-z]|^(zero|true|false)$/) {
            text = said[name]
            while (at = index(text, tight(bare(argument[i])))) {
                text = substr(text, at + length(tight(bare(argument[i]))))
                if (index(text, "=") && index(substr(text, index(text, "=") + 1), right) == 1) return 1
            }
            return 0
        }
    return index(said[name], ":") && index(said[name], "=") && index(said[name], right)
}

function bare(argument) {
    return argument ~ /^\(.*\)$/ ? substr(argument, 2, length(argument) - 2) : argument
}

# the name and the arguments of an equation, each in its brackets
function arguments(left, each,    count, word, words, i, open) {
    words = split(left, word, " ")
    count = 0
    for (i = 1; i <= words; i++) {
        if (open) each[count] = each[count] " " word[i]
        else each[++count] = word[i]
        open += gsub(/\(/, "(", word[i]) - gsub(/\)/, ")", word[i])
    }
    return count
}

END {
    for (name in wanted) if (wanted[name] != found[name]) amiss(name ": defined " wanted[name] " times, in the book " found[name] + 0)
    for (name in found) if (!(name in wanted)) amiss(name ": in the book, and nowhere in specs/")
    if (wrong || !lines) {
        print "book: " wrong + 0 " amiss"
        exit 1
    }
    print "book: " definitions " definitions are there once, with the " lines " lines that say them"
}
