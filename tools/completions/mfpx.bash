# Completion of mfpx for bash: source this file.

_mfpx() {
    local word=${COMP_WORDS[COMP_CWORD]} work=${COMP_WORDS[1]} db=
    local -a files=()
    COMPREPLY=()
    if [ "$COMP_CWORD" -eq 1 ]; then
        mapfile -t COMPREPLY < <(compgen -W "replay loopback check" -- "$word")
        return
    fi
    # What stands before the word: whether --db was given, and how many files were. (Readline splits `--db=DIR` at its `=`.)
    local at
    for ((at = 2; at < COMP_CWORD; at++)); do
        case ${COMP_WORDS[at]} in
            --db) db=folder ;;
            =) ;;
            *) if [ "$db" = folder ]; then db=given; else files+=("${COMP_WORDS[at]}"); fi ;;
        esac
    done
    [ "$word" = = ] && word=
    if [ "$work" = replay ] && [ "$db" = folder ]; then
        mapfile -t COMPREPLY < <(compgen -d -- "$word")
    elif [ "$work" = replay ] && [ -z "$db" ] && [ "${word:0:1}" = - ]; then
        mapfile -t COMPREPLY < <(compgen -W "--db" -- "$word")
    elif [ "${#files[@]}" -eq 0 ]; then
        mapfile -t COMPREPLY < <(compgen -f -- "$word")
    elif [ "$work" = replay ] && [ -z "$db" ]; then
        mapfile -t COMPREPLY < <(compgen -W "--db" -- "$word")
    fi
}
complete -o filenames -F _mfpx mfpx
