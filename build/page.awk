# Prints the synopsis, the checks, the options and the statuses of a manual page (mdoc) as plain text.

function put(word) {
    if (word == "") return
    text = text (text == "" || glue || word ~ /^[.,;:)]$/ ? "" : " ") word
    glue = 0
}

# The words of a macro line: a name of a macro says how the next word looks.
function inline(line, words, count, i, closing) {
    count = split(line, words, " ")
    closing = ""
    for (i = 1; i <= count; i++) {
        if (words[i] == "Op") { words[i + 1] = words[i + 1]; put("["); glue = 1; closing = "]" }
        else if (words[i] == "Fl") put("-" words[++i])
        else if (words[i] == "Ns") glue = 1
        else if (words[i] == "Sq" || words[i] == "Em") put("'" words[++i] "'")
        else if (words[i] == "|") put("|")
        else if (words[i] !~ /^(Ar|Cm|Pa|Nm)$/) put(words[i])
    }
    text = text closing
}

function flush(words, count, i, line) {
    count = split(text, words, " ")
    line = ""
    for (i = 1; i <= count; i++) {
        if (line != "" && length(line) + length(words[i]) + 1 + length(indent) > 79) { print indent line; line = words[i] }
        else line = line (line == "" ? "" : " ") words[i]
    }
    if (line != "") print indent line
    text = ""
}

function heading(line) {
    flush()
    shown = line ~ /^(SYNOPSIS|The checks|OPTIONS|EXIT STATUS)$/
    indent = "    "
    if (shown) print (printed++ ? "\n" : "") line
}

/^\.\\"/ { next }
/^\.Sh / || /^\.Ss / { heading(substr($0, 5)); section = substr($0, 5); next }
!shown { next }
/^\.Nm *$/ && section == "SYNOPSIS" { flush(); indent = "    "; text = "bbeq"; next }
/^\.Nm *$/ { put("bbeq"); next }
/^\.Bl/ || /^\.El/ { flush(); indent = "    "; next }
/^\.Pp/ { flush(); next }
/^\.It/ { flush(); indent = "    "; inline(substr($0, 5)); flush(); indent = "        "; next }
/^\.[A-Z]/ { inline(substr($0, 2)); next }
{ put($0) }
END { flush() }
