# Read by tests/fit: the edits, one after the other. An edit is read as rt reads it: lines `file:`, then pairs `old:` and `new:`, each of one line; a
# further pair applies to what the earlier ones made.

function amiss(what) {
    if (!(edit in wrong)) bad++
    wrong[edit]
    print edit ": " what
}

# a file of the sources, as one text
function source(path,    text, line) {
    if (!(path in sources)) {
        text = ""
        while ((getline line <path) > 0) text = text line "\n"
        close(path)
        sources[path] = text
    }
    return sources[path]
}

function settle(    path, changed) {
    if (edit == "" || edit in wrong) return
    for (path in texts) if (texts[path] != source(path)) changed = 1
    if (!changed) amiss("it changes nothing")
}

FNR == 1 {
    settle()
    edit = FILENAME
    edits++
    pieces = split(FILENAME, piece, "/")
    crate = piece[1] == "crates" ? piece[2] : piece[3]
    path = old = ""
    split("", texts)
}

/^file: / {
    path = substr($0, 7)
    if (path !~ /^(src|specs|proofs)\// || path ~ /\.\./) amiss(path ": no file of src/, specs/ or proofs/")
    path = "crates/" crate "/" path
    if (!(path in texts)) texts[path] = source(path)
    if (texts[path] == "") amiss(path ": no such file")
}

/^old: / { old = substr($0, 6) }

/^new:/ {
    new = substr($0, 5)
    sub(/^ /, "", new)
    if (path == "" || old == "") amiss("a `new:` before any `file:` or `old:`")
    else if (!(at = index(texts[path], old))) amiss("not in " path ": " old)
    else if (index(substr(texts[path], at + 1), old)) amiss("more than once in " path ": " old)
    else texts[path] = substr(texts[path], 1, at - 1) new substr(texts[path], at + length(old))
    old = ""
}

END {
    settle()
    if (bad || !edits) {
        print "fit: " bad + 0 " of " edits + 0 " amiss"
        exit 1
    }
    print "fit: " edits " wrong programs stand where they say"
}
