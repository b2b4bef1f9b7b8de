# shellcheck shell=bash disable=SC2034,SC2154
# Which program is started: what ./picklestep, ./build, ./release, ./install and ./test know of it together. They set `root`,
# the folder of the repository, before they read this file.
#
# macOS has bash 3.2, and commands with fewer options. What the entrance and ./install use of this keeps to both.

# The program as it is built here, and the folder of the same as it was last released: it needs glibc, and a processor of x86-64-v2. What
# users start is made of the same build, and lies in `further`.
crate=$root/crates/picklestep
program=$crate/out/picklestep
released=$root/dist/linux-x86_64
further=$root/dist
checked=$root/out/released

# What sums files up. (macOS has another command, which writes the same lines.)
summing=(sha256sum)
command -v sha256sum >/dev/null || summing=(shasum -a 256)

complain() {
    echo "picklestep: $1" >&2
}

# product_lines CRATE..: the lines of crates.txt for these crates and for each crate that they use, sorted; without a word for the
# program. No crate of tests is among them: it changes nothing of the program.
product_lines() {
    local wanted=" ${*:-picklestep} " before='' name libraries library
    while [ "$wanted" != "$before" ]; do
        before=$wanted
        while IFS=: read -r name libraries; do
            [[ $wanted == *" ${name%% *} "* ]] || continue
            for library in $libraries; do
                [[ $wanted == *" $library "* ]] || wanted+="$library "
            done
        done <"$root/crates.txt"
    done
    while IFS=: read -r name libraries; do
        [[ $wanted != *" ${name%% *} "* ]] || echo "$name:$libraries"
    done <"$root/crates.txt" | LC_ALL=C sort
}

# The crates of the program, or of these crates.
product_crates() {
    product_lines "$@" | sed 's/[ :].*//'
}

# The files that they are made from, but for crates.txt, each with its sum. A crate may lack one of the folders.
product_files() {
    local folders=() name
    cd -- "$root" || return
    for name in $(product_crates "$@"); do
        folders+=("crates/$name"/{src,specs,proofs})
    done
    find "${folders[@]}" -type f -print0 2>/dev/null | LC_ALL=C sort -z | xargs -0 "${summing[@]}" --
}

# The SHA-256 over the lines of crates.txt, and over the names and contents of the files. Times and modes do not count.
sum_of_sources() {
    { product_lines "$@" && (product_files "$@"); } | "${summing[@]}" | cut -d ' ' -f 1
}

# newer_source FILE [FOLDER..]: the sources, and files of FOLDERs, that are newer than FILE; nothing where there are none. The folders
# count too: their times show that a file was taken away.
newer_source() {
    shopt -s nullglob
    find "$root"/crates.txt "$root"/crates/*/{src,specs,proofs} "${@:2}" -newer "$1" -print 2>/dev/null
}

# Whether the program was built here, from the sources as they are. (Another machine that sees the folder may not be able to start it.)
is_built() {
    [ -x "$program" ] && [ -z "$(newer_source "$program")" ] && "$program" --help >/dev/null 2>&1
}

# Whether the program that the proofs built is in dist as the sources are, and whole; else this says which of the two it is not.
# A file that was cut or changed on its way must not be started, so its own sum counts too. (Busybox's sha256sum knows no long words.)
release_fault() {
    if [ ! -r "$released/SOURCES" ] || [ "$(sum_of_sources)" != "$(<"$released/SOURCES")" ]; then
        echo 'dist/linux-x86_64/SOURCES is not the sum of the sources'
    elif ! (cd -- "$released" && "${summing[@]}" -c SHA256SUMS) >/dev/null 2>&1; then
        echo 'a file of dist/linux-x86_64 has not the sum in SHA256SUMS'
    fi
}

# The SHA-256 over what the programs that users start and the library are made from: the sources of both, and the folder `targets` but
# for what makes the page (see page_fault).
sum_of_further() {
    {
        sum_of_sources picklestep picklestep_library
        (cd -- "$root" && find targets -type f -not -name '*.pyc' -not -name page.py -print0 | LC_ALL=C sort -z | xargs -0 "${summing[@]}" --)
    } | "${summing[@]}" | cut -d ' ' -f 1
}

# The same for the programs that users start.
further_fault() {
    if [ ! -r "$further/SOURCES" ] || [ "$(sum_of_further)" != "$(<"$further/SOURCES")" ]; then
        echo 'dist/SOURCES is not the sum of the sources and of targets/'
    elif ! (cd -- "$further" && "${summing[@]}" -c SHA256SUMS) >/dev/null 2>&1; then
        echo 'a file of dist has not the sum in dist/SHA256SUMS'
    fi
}

# Whether dist/picklestep.html is the page that its sources make with the module as it is; else it says that it is not. (What the page is
# made from is not among the sources of the program: a change of it makes no program anew.)
page_fault() {
    python3 -I -B "$root/targets/page.py" --check "$further" 2>&1
}

# Names the released program for this machine, in `fits`; where there is none, the module, which Node runs.
find_fitting() {
    case $(uname -sm) in
    'Linux x86_64') fits=$further/linux-x86_64-static/picklestep ;;
    'Linux aarch64') fits=$further/linux-aarch64/picklestep ;;
    *) fits=$further/picklestep.mjs && command -v node >/dev/null ;;
    esac
}

# Whether the released program for this machine is the one of the sources as they are, and whole. That it fits them is remembered by
# the file $checked, which is as old as the beginning of the comparison; where it cannot be written, each start compares.
is_released() {
    local stamp=$checked.$$
    find_fitting && [ -x "$fits" ] || return 1
    [ -e "$checked" ] && [ -z "$(newer_source "$checked" "$further" "$root/targets")" ] && [ "$fits" = "$(<"$checked")" ] && return
    { mkdir -p -- "$root/out" && printf '%s\n' "$fits" >"$stamp"; } 2>/dev/null || stamp=
    if [ -z "$(further_fault)" ]; then
        [ -z "$stamp" ] || mv -f -- "$stamp" "$checked"
    else
        rm -f -- "$stamp" "$checked"
        return 1
    fi
}

# Names the program to start, in `chosen`: the one that was built here, where it is newer than its sources, else the released one for
# this machine, where it is of the sources.
find_program() {
    if is_built; then
        chosen=$program
    else
        is_released && chosen=$fits
    fi
}

# The same, or says in a sentence why there is none. Nothing is built: who asks about a pickle does not wait for half an hour.
choose_program() {
    local fault
    if find_program; then
        return
    elif ! find_fitting; then
        complain "there is no program for this machine ($(uname -sm)): with Node 20 or later on the path its module runs (https://nodejs.org)"
    elif [ "$(uname -sm)" = 'Linux x86_64' ]; then
        fault=$(further_fault)
        complain "no program is of the sources as they are (${fault:-$fits cannot be started}): ./build --kept proves and builds it"
    else
        complain 'no program for this machine is of the sources as they are: ./release makes it where the toolchain is (CONTRIBUTING.md)'
    fi
    return 1
}

# Begins to look whether a source is newer than the latest comparison of the released program with them, if that was the same, and no program
# was built here. `chosen` is the program then, and `looking` the process that looks, whose status is 0 where none is newer.
begin_to_look() {
    [ ! -e "$program" ] && find_fitting && [ -x "$fits" ] && [ -e "$checked" ] && [ "$fits" = "$(<"$checked")" ] || return 1
    { [ -z "$(newer_source "$checked" "$further" "$root/targets")" ]; } </dev/null >/dev/null 2>&1 &
    looking=$! chosen=$fits
}

# Names the program for the words of the package too, where there is one for this machine. Python starts while PICKLESTEP_LOOKING looks at the
# sources, and waits for it before it starts the program. Where a source is newer it begins this anew with PICKLESTEP_LOOK_FIRST (entrance.py).
name_program() {
    local looks_first=${PICKLESTEP_LOOK_FIRST-}
    unset PICKLESTEP_LOOK_FIRST PICKLESTEP_LOOKING
    case ${1-} in
    '' | -h | --help | help | --version) return ;;
    esac
    if [ -z "${PICKLESTEP_PROGRAM-}" ] && ! is_for_program "$@"; then
        if [ -z "$looks_first" ] && begin_to_look; then
            export PICKLESTEP_PROGRAM=$chosen PICKLESTEP_LOOKING=$looking
        elif find_program; then
            export PICKLESTEP_PROGRAM=$chosen
        elif find_fitting; then
            choose_program
        fi
    fi
}
