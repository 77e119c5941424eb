# Completion of pgpeer for bash: subcommands and options.
_pgpeer() {
    local word=${COMP_WORDS[COMP_CWORD]} before=${COMP_WORDS[COMP_CWORD - 1]} choices
    case $before in
        --shards | --workers | --epoch-offset | --format) return ;;
    esac
    case ${COMP_WORDS[1]} in
        run) choices="--shards --workers --format --help" ;;
        explain) choices="--losses --json --epoch-offset --format --help" ;;
        compact) choices="--join --format --help" ;;
        help) choices="run explain compact" ;;
        *) choices="run explain compact help --help --version" ;;
    esac
    if [[ ${COMP_WORDS[1]} == help && $COMP_CWORD -gt 2 ]]; then
        return
    fi
    if [[ $COMP_CWORD -eq 1 ]]; then
        choices="run explain compact help --help --version"
    fi
    mapfile -t COMPREPLY < <(compgen -W "$choices" -- "$word")
}
complete -F _pgpeer pgpeer
