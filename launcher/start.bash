# shellcheck shell=bash
# How ./talek, ./serve and ./member find and start their program. Whoever reads this file has read common.bash.

: "${program:?}" "${self:?}" "${top:?}" "${kit?}" "${folder[proved]:?}"

build_unproved() {
    if ! "$top/launcher/build-unproved" "$kit" "$program" "${folder[unproved]}/$program" </dev/null >&2; then
        fail "the program was not built"
    fi
}

# Sets path to the program that is there, and builds it without proof where there is none.
find_program() {
    local kind=proved not_proved="this run isn't proved"
    if ! is_built proved; then
        kind=unproved
        if ! has_sources; then
            not_proved+=": the program was built without proof where this was installed from"
        else
            not_proved+=": ./prove proves the program, which takes half an hour on four processors"
        fi
        if is_built unproved; then
            tell "$not_proved"
        elif ! has_sources; then
            fail "this installation has no program"
        elif [ -n "$kit" ]; then
            make_folder unproved
            tell "$not_proved, and to build it without proof takes a minute or two now"
            build_in_turn unproved build_unproved
        else
            fail "no program is built from these sources, and to build one the kit's command rt is needed on the path"
        fi
    fi
    path=${folder[$kind]}/$program
}

# Starts a program that takes packets and no words, or says where it is. The first word is what --help prints.
start() {
    answer "$@"
    shift
    if [ $# -gt 1 ] || [ "${1---path}" != --path ]; then
        refuse "takes packets on standard input, and no words"
    fi
    find_program
    if [ $# -gt 0 ]; then
        echo "$path"
        exit
    fi
    exec "$path"
}
