# shellcheck shell=bash
# Completion of the commands of Puchreus in Bash, as they are called where they are installed and as in a clone:
#   . launcher/completion.bash
# What may come at the cursor is what a command tells with --help.

_talek_top=$(readlink -f "${BASH_SOURCE[0]}")
_talek_top=${_talek_top%/launcher/*}

# What the command of a name tells.
_talek_about() {
    local file=${1##*/} folder
    file=${file#talek-}
    for folder in "$_talek_top" "$_talek_top"/examples{,/apart}; do
        if [ -x "$folder/$file" ]; then
            "$folder/$file" --help
            return
        fi
    done
}

# The words that may come first: those behind the command's name in its usage, and those that begin an indented line.
_talek_words() {
    sed -nE 's/^(usage: |       )[a-z-]+ ([a-z]+)( .*)?$/\2/p; s/^  ([a-z]+) .*/\1/p' | sort -u
}

_talek_options() {
    { printf '%s\n' --help --version && grep -oE '(^|[ [])--?[a-z]+'; } | tr -d ' [' | sort -u
}

# Offers what begins as the word at the cursor.
_talek() {
    local word=$2 offered=''
    if [[ $word = -* ]]; then
        offered=$(_talek_about "$1" | _talek_options)
    elif [ "$COMP_CWORD" = 1 ]; then
        offered=$(_talek_about "$1" | _talek_words)
    fi
    mapfile -t COMPREPLY < <(compgen -W "$offered" -- "$word")
}

complete -F _talek talek talek-serve talek-member ./serve ./member
complete -o bashdefault -o default -F _talek talek-switch talek-group talek-new-group talek-summary talek-picture \
    talek-explain switch group new-group summary picture explain
