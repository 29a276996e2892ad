# Reads a manual page, and then the words of a call, a line each. Prints `fault`, a blank, and what is wrong with the first wrong word; or
# the lines `spec FILE` and `impl FILE`.

NR == FNR {
    if (/^\.Ss / || /^\.Sh /) section = substr($0, 5)
    else if (section == "The checks" && /^\.It Cm /) { checks[$3] = ++last_check; names = names (names == "" ? "" : ", ") $3 }
    else if (section == "OPTIONS" && /^\.It Fl /) take_options()
    else if (section == "OPTIONS" && current != "" && !/^\./) described[current] = described[current] " " $0
    next
}
{ words[++count] = $0 }
END { judge() }

function take_options(i) {
    for (i = 3; i <= NF; i++) if ($(i - 1) == "Fl") {
        current = "-" $i
        known[current]
        takes[current] = $(i + 1) == "Ar" ? $(i + 2) : ""
    }
}

function fault(text) {
    print "fault " text
    exit
}

function plain(number) {
    sub(/^0+/, "", number)
    return number == "" ? "0" : number
}

function is_above(left, right) {
    left = plain(left)
    right = plain(right)
    return length(left) != length(right) ? length(left) > length(right) : (left "") > (right "")
}

function likely(word, option, best, found, distance) {
    best = 3
    for (option in known) {
        distance = index(option, word) == 1 || index(word, option) == 1 ? 1 : letters_between(word, option)
        if (distance < best) { best = distance; found = option }
    }
    return found
}

function letters_between(left, right, i, j, row, corner, above, changed) {
    for (j = 0; j <= length(right); j++) row[j] = j
    for (i = 1; i <= length(left); i++) {
        corner = row[0]
        row[0] = i
        for (j = 1; j <= length(right); j++) {
            above = row[j]
            changed = corner + (substr(left, i, 1) != substr(right, j, 1))
            row[j] = changed < above + 1 ? changed : above + 1
            if (row[j - 1] + 1 < row[j]) row[j] = row[j - 1] + 1
            corner = above
        }
    }
    return row[length(right)]
}

function unknown(word, found) {
    if (word == "-h" || word == "--help" || word == "--version") fault(word " has to be the only word" (word == "-h" ? ", and is written --help" : ""))
    found = likely(word)
    fault(word " is no option" (found == "" ? "" : "; " found " is one"))
}

function check_value(option, value, range, bounds) {
    if (value == "") fault(option " has an empty value")
    if (takes[option] == "check") {
        if (!(value in checks)) fault(option " " value ": a check is one of " names)
    } else if (match(described[option], /from [0-9]+ to [0-9]+/)) {
        range = substr(described[option], RSTART, RLENGTH)
        split(range, bounds, " ")
        if (value !~ /^[0-9]+$/ || length(value) > 20 || is_above(bounds[2], value) || is_above(value, bounds[4]))
            fault(option " " value ": it takes a number " range ", in decimal digits")
    }
    given[option] = value
}

function judge(i, word, option, place, only_files, files) {
    for (i = 1; i <= count; i++) {
        word = words[i]
        if (only_files || substr(word, 1, 2) != "--" && (word !~ /^-./)) {
            if (word == "") fault("the word " i " is empty")
            files[++file_count] = word
        } else if (word == "--") only_files = 1
        else {
            place = index(word, "=")
            option = place ? substr(word, 1, place - 1) : word
            if (!(option in known)) unknown(option)
            if (option in given) fault(option " stands there twice")
            if (takes[option] == "") {
                if (place && option != "--rup") fault(option " takes no value")
                given[option] = ""
            } else if (place) check_value(option, substr(word, place + 1))
            else if (i == count) fault(option " has no value")
            else if (words[i + 1] ~ /^-./) fault(option " has no value: one that begins with a minus sign stands after `=`")
            else check_value(option, words[++i])
        }
    }
    if ("--rup" in given) { for (option in given) if (option != "--rup") fault(option " does not stand beside --rup") }
    if ("--make" in given) {
        if (file_count) fault(files[1] ": with --make no file is read")
        for (option in given) if (option ~ /^--(top-spec|top-impl|shared|care|invariant)$/) fault(option " does not stand beside --make")
    } else if (file_count < 2) fault((file_count ? "there is one file, " files[1] : "there is no file") ": give two")
    else if (file_count > 2) fault(files[3] ": there are " file_count " files, and two are read")
    if (("--care" in given) && ("--invariant" in given)) fault("--care does not stand beside --invariant")
    if (("--from" in given) && ("--to" in given) && checks[given["--from"]] > checks[given["--to"]])
        fault("--from " given["--from"] " comes after --to " given["--to"])
    if (file_count == 2) print "spec " files[1] "\nimpl " files[2]
}
