# Runs `main` of a module of Python with the words of a script, which has set `module` to its name, `self` to its own path and `tools` to this
# folder.
#
# A start of Python takes longer than many runs of bbeq, so what it does not need is left out. Shims, as those of pyenv, are scripts that take
# longer to choose a Python than this one takes to start: the first program behind them does, if its name says that it is recent enough.
# Nothing is used but the standard library, so neither `site` nor variables of Python's are read. Modules are compiled once, into the user's
# cache, where that can be written; nothing is written beside the sources.

set -u

# Sets `python`.
find_python() {
    python=
    set -f
    IFS=:
    for folder in $PATH; do
        file=${folder:-.}/python3
        [ -f "$file" ] && [ -x "$file" ] && IFS= read -r first <"$file" || continue
        case $first in
        '#!'*)
            python=${python:-$file}
            continue
            ;;
        esac
        # The first on the PATH is the user's choice, whatever its name.
        [ -n "$python" ] || { python=$file; break; }
        case $(readlink -f -- "$file") in
        *python3.9 | *python3.[1-9][0-9])
            python=$file
            break
            ;;
        esac
    done
    unset IFS
    set +f
}

find_python
[ -n "$python" ] || {
    echo "${self##*/}: python3 is not on the PATH" >&2
    exit 125
}
set -- "$tools/start.py" "$module" "$self" "$@"
cache=${XDG_CACHE_HOME:-${HOME:+$HOME/.cache}}
case $cache in
/*)
    cache=$cache/bbeq/python
    { [ -d "$cache" ] || mkdir -p -- "$cache"; } 2>/dev/null
    ;;
esac
[ -d "$cache" ] && [ -w "$cache" ] && exec "$python" -I -S -X "pycache_prefix=$cache" "$@"
exec "$python" -I -S -B "$@"
