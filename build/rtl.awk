# Prints the first line of a text that has a construct of RTL, and the construct.

function without_comments(line, place) {
    for (;;) {
        if (inside) {
            place = index(line, "*/")
            if (!place) return ""
            line = substr(line, place + 2)
            inside = 0
        } else if (match(line, /\/\/|\/\*/)) {
            if (substr(line, RSTART, 2) == "//") return substr(line, 1, RSTART - 1)
            place = RSTART
            if (index(substr(line, place + 2), "*/")) line = substr(line, 1, place - 1) " " substr(line, place + 2 + index(substr(line, place + 2), "*/") + 1)
            else { inside = 1; return substr(line, 1, place - 1) }
        } else return line
    }
}

BEGIN {
    split("logic parameter localparam generate genvar initial case casez casex if for while function task integer always_comb always_ff" \
          " always_latch typedef enum package import interface begin", listed, " ")
    for (i in listed) is_rtl[listed[i]]
}

{
    line = " " without_comments($0)
    if (line ~ /@ *(\*|\( *\* *\))/) { print NR " `always @*`"; exit }
    gsub(/[^A-Za-z0-9_$\\]/, " ", line)
    count = split(line, words, " ")
    for (i = 1; i <= count; i++) if (words[i] in is_rtl) { print NR " `" words[i] "`"; exit }
}
