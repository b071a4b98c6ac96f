# Completion of grubrun for bash.
_grubrun() {
    local current=${COMP_WORDS[COMP_CWORD]}
    case ${COMP_WORDS[COMP_CWORD - 1]} in
        --tries | --rounds | --from | --to)
            compopt +o default 2> /dev/null
            return
            ;;
        --view)
            mapfile -t COMPREPLY < <(compgen -W 'timeline steps summary picture' -- "$current")
            return
            ;;
    esac
    [[ $current != -* ]] ||
        mapfile -t COMPREPLY < <(compgen -W '--tries --rounds --view --from --to -h --help -V --version' -- "$current")
}
complete -o default -F _grubrun grubrun
