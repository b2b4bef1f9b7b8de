# shellcheck shell=sh disable=SC2154
# How ./picklestep and what ./install puts on the path begin. They set `package`, the folder of the Python package, and define
# choose_program, which sets `chosen` or says why there is no program.

# Whether the words are for the program itself: it has a page of help, and they do not ask for that.
is_for_program() {
    case $1 in
    '' | */* | picklestep) return 1 ;;
    esac
    [ -e "$package/help/$1.txt" ] || return 1
    case " $* " in
    *' --help '* | *' -h '*) return 1 ;; # (or a file has such a name: then the Python side hands over)
    esac
}

# Whether a file begins like a container, or has the values of dbm.dumb: opens.py has the same signs, and looks closer. Bash reads them itself,
# and drops NUL bytes. No pickle begins with a control character, with Z or with x.
holds_others() {
    case $1 in
    /dev/* | /proc/*) return 1 ;; # (what was given open is read once)
    *.dat) [ ! -f "${1%.dat}.dir" ] || return 0 ;;
    esac
    [ -f "$1" ] || return 1
    bash_version=${BASH_VERSION-}
    if [ "${bash_version%%.*}" -ge 4 ] 2>/dev/null; then
        begin='' left=262
        while [ "$left" -gt 0 ]; do # (a read ends at a NUL byte: one that went on behind it would read all of a file of zeros)
            # shellcheck disable=SC3045
            LC_ALL=C IFS='' read -r -d '' -n "$left" part || left=0
            begin=$begin$part left=$((left - ${#part} - 1))
        done <"$1" 2>/dev/null # (which names a locale that is not there)
    else
        begin=$(head -c 262 <"$1")
    fi
    case $begin in
    ']'[q\(aK.2]*) return 1 ;; # (a list in a pickle; lzma has zeros there)
    PK* | [[:cntrl:]]* | BZh* | ']'* | '('?/* | '('??/* | Z* | x* | 'SQLite format 3'* | a[[:cntrl:]]*) return 0 ;;
    ?NUMPY* | ?7zXZ* | ?HDF* | ?W[[:cntrl:]]* | ??W[[:cntrl:]]* | *ustar*) return 0 ;;
    esac
    return 1
}

# Whether a file, whose beginning holds_others has read, begins like no pickle, or has the name of joblib's arrays or the number of torch's old files:
# opens.py asks the same.
has_more() {
    case $1 in
    /dev/* | /proc/*) return 1 ;;
    esac
    [ -s "$1" ] || return 1
    case $begin in
    *' j'?P[[:cntrl:]]* | [![:print:][:cntrl:]][[:cntrl:]][[:cntrl:]]* | ?[[:cntrl:]]sNaPpY*) return 0 ;;
    '(This file must'* | conectix* | KC[[:cntrl:]]* | KDMV* | NBCDB* | 'TDB file'* | ToKyO* | 'UBI#'* | XFSB*) return 0 ;;
    NXSB* | T-DB*) return 0 ;; # (behind NUL bytes)
    [\(\)\]\}cKNTUVX]* | [FIL][-0-9]* | S[\'\"]* | [![:print:][:cntrl:]][[:cntrl:]]*) ;;
    *) return 0 ;;
    esac
    head -c 67108864 <"$1" 2>/dev/null | grep -q NumpyArrayWrapper 2>/dev/null
}

# Whether a list is a set of the package, or includes others: Python puts these together.
is_put_together() {
    case $1 in
    */*) ;;
    *) [ ! -e "$package/scan/allow/$1.txt" ] || return 0 ;;
    esac
    [ -f "$1" ] && grep -q '^[[:blank:]]*include[[:blank:]]' <"$1"
}

# Whether Python has something to say beside the program's own lines: where else to look, which file cannot be read, or what it opens, an
# address or a container (entrance.py asks the same). Without Python the program's lines are all.
is_told_more() {
    command -v python3 >/dev/null || return 1
    [ "$1" != opcodes ] || return 1 # (it has no file)
    case " $* " in ' calls '* | ' members '* | ' assemble '*' --save'* | ' assemble '*' --frame '*) return 0 ;; esac # (Python saves, and frames)
    opens=1 listed=''
    [ "$1" != assemble ] || opens=''
    if [ "$1" = gate ]; then
        case " $*" in *' --explain'* | *' --list'*) return 0 ;; esac
        listed=$2 files=$#
        case " $* " in *' --json '*) files=$((files - 1)) ;; esac
        [ "$2" != --json ] || listed=${3-}
        ! is_put_together "$listed" || return 0
        [ "$files" -le 3 ] || opens='' # (among several files none is opened)
    fi
    shift
    for word in "$@"; do
        case $word in
        --) return 0 ;; # (a file behind it may have a name like an option)
        -*) ;;
        *)
            [ -r "$word" ] && [ ! -d "$word" ] || return 0
            if [ -n "$opens" ] && [ "$word" != "$listed" ]; then
                ! holds_others "$word" && ! has_more "$word" || return 0
            fi
            ;;
        esac
    done
    return 1
}

# Becomes the program for its words, and the Python package for all others.
enter() {
    if is_for_program "$@"; then
        choose_program || exit 2
        if ! is_told_more "$@"; then
            unset NODE_EXTRA_CA_CERTS NODE_OPTIONS # (place.py says why)
            exec "$chosen" "$@"
        fi
        export PICKLESTEP_PROGRAM="$chosen"
    fi
    if command -v python3 >/dev/null; then
        exec python3 -I -S ${PYTHONDONTWRITEBYTECODE:+-B} "$package/entrance.py" "$@" # (further.py brings what -S leaves out)
    fi
    echo 'picklestep: python3 (3.8 or later) is not there: only list, objects, calls, form, gate, reach, members, assemble, same, opcodes and debug work without it' >&2
    exit 2
}
