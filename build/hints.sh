# What ./bbeq and an installed bbeq say beside the program: its words and its version where they are asked for alone, and on a terminal, on
# standard error, why a run was refused and what to try. Standard output and the status stay the program's own. A script that reads this file
# has a function `say`, and has set `page`, the manual page, `helpers`, a folder with the .awk files, `tools`, what the names of the commands
# of contrib begin with, and `documents`, where the documents are.

wants_hints() {
    [ "${BBEQ_HINTS-}" != 0 ] && [ -t 2 ]
}

print_help() {
    awk -f "$helpers/page.awk" "$page"
    cat <<TEXT

Beside the program, ${tools}solve runs it in several ways at once, and ${tools}gates makes
netlists of RTL. \`man -l $page\` has the lines of the report.
TEXT
}

# Runs a program; what ends this script ends the program.
run_program() {
    if [ -e /proc/self/fd/0 ]; then
        "$@" <&0 &
    else
        "$@" <&- &
    fi
    child=$!
    trap 'kill "$child" 2>/dev/null; exit 130' INT
    trap 'kill "$child" 2>/dev/null; exit 143' TERM
    trap 'kill "$child" 2>/dev/null; exit 129' HUP
    # Some shells name the signal that ended a program.
    { wait "$child"; } 2>/dev/null
}

# What is wrong with the words, or the two files: `fault TEXT`, or `spec FILE` and `impl FILE`.
judge_words() {
    for word; do
        printf '%s' "$word" | tr '\n' ' '
        echo
    done | awk -f "$helpers/usage.awk" "$page" -
}

of_words() {
    printf '%s\n' "$judged" | sed -n "s/^$1 //p"
}

# Says why a run ended with status 2, 3 or 4: hint STATUS PROGRAM WORD ..
hint() {
    ended=$1
    shift
    case $ended in
    3) say "hint: ${tools}solve tries several checks with larger budgets; $documents/REPORT.md, \"Where the verdict is open\", goes by the last rung line" ;;
    2 | 4)
        program=$1
        shift
        judged=$(judge_words "$@")
        if [ "$ended" -eq 4 ]; then hint_unread; else hint_refused "$@"; fi
        ;;
    esac
}

# A path that is no option, no pipe and no assignment.
path_of() {
    case $1 in
    /*) printf '%s' "$1" ;;
    *) printf './%s' "$1" ;;
    esac
}

hint_unread() {
    for side in spec impl; do
        file=$(of_words $side)
        why=$(LC_ALL=C cat -- "$(path_of "$file")" 2>&1 >/dev/null) || {
            say "hint: $file: ${why##*: }"
            return
        }
    done
}

hint_refused() {
    fault=$(of_words fault)
    if [ -n "$fault" ]; then
        say "hint: $fault; bbeq --help lists the words"
        return
    fi
    spec=$(of_words spec)
    impl=$(of_words impl)
    # The program is asked again, and says the same at once; a pipe cannot be read twice.
    [ -f "$spec" ] && [ -f "$impl" ] || return
    refusal=$("$program" "$@" 2>/dev/null </dev/null | head -n 1 | head -c 300)
    case $refusal in
    'refused spec token line '* | 'refused spec statement line '*) hint_text "$spec" ;;
    'refused impl token line '* | 'refused impl statement line '*) hint_text "$impl" ;;
    'refused pair register '* | 'refused pair port '*)
        say "hint: ${tools}names $spec $impl lists all that one of the two lacks, with likely partners; a register cannot be in a box" ;;
    'refused pair specbox '*) say "hint: $spec has an empty module; the specification, which has none, comes first" ;;
    esac
}

hint_text() {
    found=$(awk -f "$helpers/rtl.awk" <"$1")
    line=${refusal##* }
    if [ -n "$found" ]; then
        say "hint: $1 is RTL (line ${found%% *} has ${found#* }): ${tools}gates $1 -o netlist.v makes a netlist of it, by yosys"
    else
        say "hint: line $line of $1 is: $(sed -n "${line}p" <"$1" | LC_ALL=C tr -cd '[:print:]' | head -c 160)"
        say "hint: $documents/LANGUAGE.md says what is read; ${tools}gates reads more, by yosys"
    fi
}
