# shellcheck shell=bash
# What ./talek, ./serve, ./member and ./prove share: where the built programs are, and whether they were built from
# these very sources. Whoever reads this file has set top, the repository's folder, and self, the name that messages
# begin with; and program, which of the three it is about, where it isn't talek.

set -euo pipefail
# Neither another compiler nor C code may make a program that counts as proved.
unset RT_BACKEND RT_ALLOW_C
: "${top:?}" "${self:?}"
# shellcheck source=launcher/words.bash
. "$top/launcher/words.bash"
# A proved program and an unproved one each have a folder of their own, with the program, and
#   made-of: whether it is proved, the kit's identity, and the checksums of the sources and of the program,
#   seen: the sizes and times of all these files, as they were when they last had those checksums,
#   lock: held by whoever builds there.
# They stand beside crates/, since the gate empties crates/*/out.
declare -A folder

# Sets which program the rest is about.
use_program() {
    program=$1
    folder=([proved]=$top/proved/$program [unproved]=$top/unproved/$program)
}

fail() {
    echo "$self: $1" >&2
    exit 70
}
# Whatever else fails here must not end with a status of the program's.
set -E
trap 'exit 70' ERR

# Says one line on standard error, and goes on where nobody reads it.
tell() {
    (trap '' PIPE && echo "$self: $1" >&2) || true
}

# Finds the kit whose command rt is on the path: its folder and its identity, both empty where there is none.
find_kit() {
    local rt
    kit='' kit_id=''
    hash rt 2>/dev/null || return 0
    rt=$(readlink -f "${BASH_CMDS[rt]}") || return 0
    if [ -f "${rt%/*/*}/KIT-ID" ]; then
        kit=${rt%/*/*}
        read -r kit_id <"$kit/KIT-ID" || true
    fi
}

# Does with each source what the words say, which are further files and then tests and actions of find.
each_source() {
    (
        cd "$top"
        shopt -s nullglob
        find crates.txt HANDLES crates/*/{src,specs,proofs} "$@"
    )
}

sum_of_sources() {
    each_source -type f -print0 | LC_ALL=C sort -z | (cd "$top" && xargs -0 sha256sum) | sha256sum
}

# The sources and the files that are named besides, each with its number, its size and its time of change, which no edit
# leaves as it was.
sizes_and_times() {
    each_source "$@" -type f -printf '%p %i %s %C@\n'
}

# Whether some of these files changed so lately that one more change could bear the same time.
is_fresh() {
    [ -n "$(each_source "$1" -type f -newerct '2 seconds ago' -print -quit)" ]
}

# Whether a program of this kind is intact and was built from these sources, by this kit where there is one. It reads
# them all only where sizes or times changed. What ./install made has no sources beside it, and is taken as it is.
is_built() {
    local kind=$1 place=${folder[$1]} made_by now
    local built=$place/$program
    [ -x "$built" ] && [ -f "$place/made-of" ] || return 1
    read -r made_by <"$place/made-of" || return 1
    if ! has_sources; then
        [ "${made_by%% *}" = "$kind" ] || return 1
        return 0
    fi
    [ "$made_by" = "$kind ${kit_id:-${made_by#* }}" ] || return 1
    now=$(sizes_and_times "$built")
    if [ -f "$place/seen" ] && [ "$now" = "$(<"$place/seen")" ]; then
        return 0
    fi
    [ "$(<"$place/made-of")" = "$(what_made "$made_by" "$(sum_of_sources)" "$built")" ] || return 1
    if ! is_fresh "$built" && [ "$now" = "$(sizes_and_times "$built")" ]; then
        # (in a folder that may not be written to, each start reads all)
        { echo "$now" >"$place/seen"; } 2>/dev/null || true
    fi
}

has_sources() {
    [ -d "$top/crates" ]
}

# What is written of a program: what made it, the sum of the sources, and its own.
what_made() {
    printf '%s\n' "$1" "$2"
    sha256sum <"$3"
}

# The second line of --version: which kit made the program that would be started, and whether it is proved.
what_proved() {
    local kind made_by
    for kind in proved unproved; do
        if is_built "$kind"; then
            read -r _ made_by <"${folder[$kind]}/made-of"
            if [ "$kind" = proved ]; then
                echo "proved with $made_by"
            else
                echo "built without proof, with $made_by"
            fi
            return
        fi
    done
    echo "not built here yet; the crates of this version are proved with $proving_kit"
}

# Makes the folder of a kind of program, with its lock.
make_folder() {
    local place=${folder[$1]}
    if ! { mkdir -p "$place" && : >>"$place/lock"; } 2>/dev/null; then
        fail "no program is built from these sources, and $place can't be written to"
    fi
}

# Builds a program of a kind, whose folder is made, by the command that the further words are, which must leave it
# there. One start builds at a time, and whoever waited takes what was built.
build_in_turn() {
    local kind=$1 place=${folder[$1]} sources times
    shift
    exec 9>>"$place/lock"
    flock 9
    if ! is_built "$kind"; then
        rm -f "$place/$program" "$place"/{made-of,seen}
        times=$(sizes_and_times)
        sources=$(sum_of_sources)
        "$@"
        # (an edit that was taken back meanwhile has left its time)
        if [ "$times" != "$(sizes_and_times)" ]; then
            rm -f "$place/$program"
            fail "the sources changed while the program was built from them: start it once more"
        fi
        what_made "$kind $kit_id" "$sources" "$place/$program" >"$place/made-of"
    fi
    exec 9>&-
}

use_program "${program:-talek}"
find_kit
