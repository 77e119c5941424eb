# Completion of pgpeer-ceph for bash: verbs, options and files.
_pgpeer_ceph() {
    local word=${COMP_WORDS[COMP_CWORD]} before=${COMP_WORDS[COMP_CWORD - 1]} choices
    case $before in
        --from | --to | --pool | --pg | --jobs | --seconds | --ceph | --stop | --every | --size | --rounds) return ;;
        --each) mapfile -t COMPREPLY < <(compgen -W "host rack osd" -- "$word"); return ;;
        --output | -o | --groups | --epochs | --program) mapfile -t COMPREPLY < <(compgen -f -- "$word"); return ;;
    esac
    if [[ $COMP_CWORD -eq 1 ]]; then
        mapfile -t COMPREPLY < <(compgen -W "fetch record script explain plan what-if draw report map --help --version" -- "$word")
        return
    fi
    case ${COMP_WORDS[1]} in
        fetch) choices="--ceph --pg --pool --jobs --seconds --from --to --no-groups --help" ;;
        record) choices="--every --size --rounds --ceph --pool --jobs --from --no-groups --help" ;;
        script) choices="--pool --straw2 --keep-epochs --ask --strict --output --pg --groups --from --to --help" ;;
        explain) choices="--epochs --losses --program --help" ;;
        plan) choices="--program --help" ;;
        what-if) choices="--stop --each --program --help" ;;
        draw) choices="--epochs --program --from --to --output --help" ;;
        report) choices="--output --each --program --help" ;;
        map) choices="--pool --straw2 --keep-epochs --ask --strict --output --alone --help" ;;
    esac
    if [[ $word == -* ]]; then
        mapfile -t COMPREPLY < <(compgen -W "$choices" -- "$word")
    else
        mapfile -t COMPREPLY < <(compgen -f -- "$word")
    fi
}
complete -o filenames -F _pgpeer_ceph pgpeer-ceph
