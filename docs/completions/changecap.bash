# Completion of changecap for bash.
_changecap() {
    local word=${COMP_WORDS[COMP_CWORD]} before=${COMP_WORDS[COMP_CWORD - 1]} command='' words at
    for ((at = 1; at < COMP_CWORD; at++)); do
        case ${COMP_WORDS[at]} in
            -*) ;;
            *) command=${COMP_WORDS[at]} && break ;;
        esac
    done
    case $command in
        '') words='run shell load show check summary invert patchset concat rebase --version' ;;
        run) words='--threads --in-turn --json --explain --progress --no-progress' ;;
        shell) words='--file --explain' ;;
        show) words='--sql --json --jsonl --columns --binary --output' ;;
        load | check | summary) words='--output' ;;
        invert | patchset | concat | rebase) words='--binary --key-flags --output' ;;
        *) return ;;
    esac
    words="$words --verbose --help"
    case $before in
        --key-flags) words='places ones' ;;
        --threads | --columns) words='' ;;
        -o | --output | -f | --file) words='' ;;
    esac
    # shellcheck disable=SC2207 # no word has a space
    COMPREPLY=($(compgen -W "$words" -- "$word"))
    if [[ $command == shell && $before != -f && $before != --file ]]; then
        return
    fi
    if [[ $command && $before != --key-flags && $before != --threads && $before != --columns ]]; then
        # shellcheck disable=SC2207 # a name with a space is left to the caller
        COMPREPLY+=($(compgen -f -- "$word"))
    fi
}
complete -F _changecap changecap
