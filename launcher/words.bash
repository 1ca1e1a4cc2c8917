# shellcheck shell=bash
# How the Bash scripts of this repository take their words. Whoever reads this file has set top, the repository's
# folder, and self, the name that messages begin with.

: "${top:?}" "${self:?}"
{ read -r version && read -r proving_kit; } <"$top/VERSION"

# The second line of --version.
what_proved() {
    echo "a script without proof; the crates of this version are proved with $proving_kit"
}

# Answers --help and --version, if one of them is among the words, and ends. The first word is what --help prints.
answer() {
    local about=$1 word
    shift
    for word; do
        case $word in
            --help | -h)
                printf '%s\n' "$about"
                exit
                ;;
            --version)
                printf '%s (Puchreus) %s\n%s\n' "${self#./}" "$version" "$(what_proved)"
                exit
                ;;
        esac
    done
}

# Ends with 2, as whoever is given words that it doesn't take.
refuse() {
    echo "$self: $1: see $self --help" >&2
    exit 2
}

no_words() {
    [ $# -eq 0 ] || refuse "takes no words, and got '$*'"
}
