# Completes rtsh in bash: source this file, or copy it to ~/.local/share/bash-completion/completions/rtsh.

_rtsh() {
    local word=$2 before=$3 words=
    if ((COMP_CWORD == 1)); then
        words="run check draw help --help --version"
    elif [[ $before == --capacity || $before == "=" ]]; then
        words=$(seq 5 51)
    elif [[ ${COMP_WORDS[1]} == help ]]; then
        words="run check draw"
    elif [[ $word == -* && ${COMP_WORDS[1]} == run ]]; then
        words="--capacity --bail --echo --unbuffered --where --help"
    elif [[ $word == -* && ${COMP_WORDS[1]} == draw ]]; then
        words="--axes --levels --all --help"
    elif [[ $word == -* ]]; then
        words="--help"
    fi
    # Where nothing fits, bash completes the name of a file.
    mapfile -t COMPREPLY < <(compgen -W "$words" -- "$word")
}

complete -o default -F _rtsh rtsh
