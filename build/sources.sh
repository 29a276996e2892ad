# What ./bbeq, ./prove and ./install share: what the program's sources are, and which programs are made of them. A script that reads this
# file has set `top`, the top of the repository, and `name`, its own name.
#
# The proved program is crates/bbeq/out/bbeq, where ./prove and `rt ci` leave it. The unproved one is called unproved-HASH, by a hash of its
# sources and of the kit, and lies in out/, or in the user's cache where out/ cannot be written.

proved=$top/crates/bbeq/out/bbeq
record=$top/out/proved
cache=${XDG_CACHE_HOME:-${HOME:+$HOME/.cache}}
cache=${cache:+$cache/bbeq}

say() {
    printf '%s: %s\n' "$name" "$*" >&2
}

# The lines of a list of crates for the program and the libraries below it, the lowest first.
needed() {
    awk -F: '
        { sub(/#.*/, "") }
        NF > 1 { line = $0; gsub(/[ \t]/, "", $1); lines[$1] = line; below[$1] = $2 }
        function take(crate, names, count, i) {
            if (!(crate in lines)) return
            count = split(below[crate], names, /[ \t]+/)
            for (i = 1; i <= count; i++) take(names[i])
            print lines[crate]
            delete lines[crate]
        }
        END { take("bbeq") }' "$1"
}

# The folders of the needed crates, each with these words after it.
folders() {
    for part; do
        needed "$list" | sed "s,[ 	]*:.*,,; s,^,crates/,; s,\$,$part,"
    done
}

# Copies the needed crates to a folder that rt takes for the top of a repository, and crates.txt to its file `listed`.
copy_needed() {
    list=$1/listed
    mkdir -- "$1/.git" && cp -- "$top/crates.txt" "$list" && needed "$list" >"$1/crates.txt" || return 1
    (CDPATH='' cd -- "$top" && folders '' | tar cf - --exclude=out --exclude=must-fail HANDLES -T -) |
        (CDPATH='' cd -- "$1" && tar xf -)
}

# Sets `sources` to a hash of a top's list of crates and of the sources of the needed ones: read_sources TOP LIST.
read_sources() {
    list=$2
    sources=$(CDPATH='' cd -- "$1" && {
        cat -- "$list"
        # Not every crate has all three folders.
        find $(folders /src /specs /proofs) -type f -exec sha256sum -- {} + 2>/dev/null | LC_ALL=C sort -k 2
    } | sha256sum | cut -c 1-32)
}

# No source has changed since rt made the folders to which it then wrote what it had proved. A time of change cannot be set, as a time of
# modification can.
is_left_by_rt() {
    list=$top/crates.txt
    mark=$(mktemp 2>/dev/null) || return 1
    (
        CDPATH='' cd -- "$top" || exit 1
        # The time of birth is 0 where the file system has none.
        since=$(stat -c %.9W -- $(folders /out) 2>/dev/null) || exit 1
        touch -d "@$(echo "$since" | sort -n | head -n 1)" -- "$mark"
        [ -z "$(find crates.txt $(folders /src /specs /proofs) -cnewer "$mark" 2>/dev/null | head -n 1)" ]
    )
    set -- $?
    rm -f -- "$mark"
    return "$1"
}

# The proved program is made of these sources.
is_proved() {
    read_sources "$top" "$top/crates.txt"
    [ -x "$proved" ] || return 1
    sum=$(sha256sum <"$proved") || return 1
    sum=${sum%% *}
    known=
    [ ! -r "$record" ] || read -r known <"$record"
    [ "$known" = "$sources $sum" ] || { is_left_by_rt && note_proved; }
}

# Notes of which sources the proved program is made, and removes the unproved programs.
note_proved() {
    { mkdir -p -- "$top/out" && echo "$sources $sum" >"$record.$$" && mv -f -- "$record.$$" "$record" && rm -f -- "$top"/out/unproved-*; } 2>/dev/null
    return 0
}

# Sets `kit` to the line of the kit, and `stranger` to a remark where it is not that of README.
read_kit() {
    command -v rt >/dev/null 2>&1 && kit=$(rt version 2>/dev/null) && [ -n "$kit" ] || return 1
    due=$(sed -n 's/.*`\(rattle-kit-[^`]*\)`.*/\1/p' "$top/README.md" 2>/dev/null | head -n 1)
    stranger=
    [ "$kit" = "$due" ] || stranger="; the kit is $kit, and not README.md's $due"
}

# Sets `unproved` to the unproved program of these sources and this kit, where there is one.
find_unproved() {
    file=unproved-$(printf '%s\n' "$sources" "$kit" | sha256sum | cut -c 1-32)
    for folder in "$top/out" ${cache:+"$cache"}; do
        unproved=$folder/$file
        [ ! -x "$unproved" ] || return 0
    done
    return 1
}
