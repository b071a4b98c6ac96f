# Completion of grubtrace for bash.
_grubtrace() {
    local current=${COMP_WORDS[COMP_CWORD]} command word words
    for word in "${COMP_WORDS[@]:1:COMP_CWORD-1}"; do
        case $word in
            tasks | events | check | size | help)
                command=$word
                break
                ;;
        esac
    done
    case ${COMP_WORDS[COMP_CWORD - 1]} in
        --task | --cpus | --domain | --rt | --kernel | --within | --late | --margin | --from | --to)
            compopt +o default 2> /dev/null
            return
            ;;
        --fair-server)
            mapfile -t COMPREPLY < <(compgen -W none -- "$current")
            return
            ;;
        --by)
            mapfile -t COMPREPLY < <(compgen -W 'kernel documentation' -- "$current")
            return
            ;;
        --laws)
            mapfile -t COMPREPLY < <(compgen -W 'progress expiry firing 0-lag budget total pick run server none' -- "$current")
            return
            ;;
        --out | --table | --json | --picture | --report) return ;;
    esac
    case ${command-} in
        '') words='tasks events check size help -h --help -V --version' ;;
        help) words='tasks events check size' ;;
        tasks) words='-h --help' ;;
        events) words='--task --cpus --rt --fair-server --out -h --help' ;;
        check) words='--task --cpus --domain --rt --fair-server --kernel --within --by --timers --laws --why --table --json --picture --report --from --to -h --help' ;;
        size) words='--task --within --late --margin --picture --cpus --rt --fair-server -h --help' ;;
    esac
    if [[ $current == -* || -z ${command-} || $command == help ]]; then
        mapfile -t COMPREPLY < <(compgen -W "$words" -- "$current")
    fi
}
complete -o default -F _grubtrace grubtrace
