#!/bin/sh
# The entrance, as ./install puts it on the path: bin/picklestep, with the package and the program in lib/picklestep.

here=$0
while [ -h "$here" ]; do # (an older macOS has no readlink -f)
    link=$(readlink -- "$here")
    case $link in
    /*) here=$link ;;
    *) here=$(dirname -- "$here")/$link ;;
    esac
done
case $here in
*/*) ;;
*) here=./$here ;;
esac
package=$(CDPATH='' cd -- "${here%/*}/.." && pwd -P)/lib/picklestep/picklestep
. "$package/help/start.sh"

choose_program() {
    # shellcheck disable=SC2034
    chosen=$package/bin/picklestep
    [ ! -e "$chosen" ] || return 0
    chosen=$chosen.mjs # (the module)
    command -v node >/dev/null && return
    echo 'picklestep: the program is a module, which runs with Node 20 or later on the path (https://nodejs.org)' >&2
    return 1
}

enter "$@"
