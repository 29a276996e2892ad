# What ./prove says while it works, of the copy in `room`, from what rt writes to `log`.

# Weighs the crates: in seconds of a processor, about 14 for each check, 2.4 for each function and 9 for 1,000 lines of lemmas.
weigh() {
    needed "$room/top/listed" | while IFS=: read -r crate _; do
        functions=$(find "$room/top/crates/$crate" -name '*.rt' -exec cat {} + | grep -c '\<fn [a-z]')
        lines=$(find "$room/top/crates/$crate" -name '*.antt' -exec cat {} + | wc -l)
        echo "$crate $((140 + functions * 24 + lines * 9 / 100))"
    done >"$room/weights"
    true >"$room/told"
}

# Says which crates were proved since it was last said, and where `$1` is 0 which are being proved and how long the rest may take. Crates
# that are kept from an earlier run took no time, so they tell nothing of the rest.
tell() {
    awk -v quiet="$1" -v told="$room/told" -v seconds="$(($(date +%s) - began))" '
        FILENAME == ARGV[1] { is_told[$1]; next }
        FILENAME == ARGV[2] { weight[$1] = $2; next }
        FILENAME == ARGV[3] { sub(/:/, ""); crates[++total] = $1; below[$1] = $0; is_own[$1]; next }
        $1 == "rt:" && ($0 ~ /^rt: [a-z0-9_]+ proved$/ || $3 $4 == "iskept:") {
            is_proved[$2]
            count_proved++
            if ($4 != "kept:") done += weight[$2]
            if (!($2 in is_told)) { print $2 >>told; print "prove: " $2 " is proved, " seconds " s so far" }
        }
        END {
            for (k = 1; k <= total; k++) {
                waits = crates[k] in is_proved
                count = split(below[crates[k]], names)
                for (i = 2; i <= count; i++) if (names[i] in is_own && !(names[i] in is_proved)) waits = 1
                if (!waits) { proving = proving " " crates[k]; done += done > 0 ? weight[crates[k]] / 2 : 0; left += weight[crates[k]] / 2 }
                else if (!(crates[k] in is_proved)) left += weight[crates[k]]
            }
            if (quiet || proving == "") exit
            rest = done > 0 ? sprintf(", about %d min left", seconds * left / done / 60 + 1) : ""
            print "prove: proving" proving " (" count_proved + 0 " of " total " are done), " seconds " s so far" rest
        }' "$room/told" "$room/weights" "$room/top/crates.txt" "$log" >&2
}

# Says each two seconds what was proved, and each thirty what is left, until rt has ended or the room is gone.
follow() {
    number=0
    while sleep 2 >/dev/null 2>&1 && [ -e "$room/told" ] && [ ! -e "$room/ended" ]; do
        number=$(((number + 1) % 15))
        tell "$number"
    done
    [ ! -e "$room/ended" ] || tell 1
}

# Shows the end of what rt said of each crate that is not proved, or else of all.
tell_failure() {
    failed=$(sed -n 's/^rt: \([a-z0-9_]*\) NOT PROVED$/\1/p' "$log")
    [ -n "$failed" ] || tail -n 20 -- "$log" >&2
    for crate in $failed; do
        sed -n "/^== $crate\$/,/^rt: $crate NOT PROVED\$/p" "$log" | tail -n 20 >&2
        say "$crate is not proved"
    done
}
