# shellcheck shell=bash
# A line on a terminal that moves while something is built or proved. Where standard error is no terminal there is none.

# Shows how far it is in the place of what was shown before.
show() {
    if [ -t 2 ]; then
        printf '\r\033[K%s' "$1" >&2
    fi
}

# Takes the line away.
show_no_more() {
    if [ -t 2 ]; then
        printf '\r\033[K' >&2
    fi
}

# A time of some seconds in words.
in_words() {
    local seconds=$1
    if [ "$seconds" -lt 90 ]; then
        echo "$(((seconds + 5) / 10 * 10)) seconds"
    else
        echo "$(((seconds + 30) / 60)) minutes"
    fi
}

# How long it takes yet, in words, by the seconds that some parts of the whole took so far.
time_left() {
    local took=$1 part=$2 whole=$3
    if [ "$part" -gt 0 ]; then
        echo "about $(in_words $((took * (whole - part) / part))) left"
    else
        echo "just begun"
    fi
}
