# Completion of roskvidh for bash: '. share/completions/roskvidh.bash', or a copy in /usr/share/bash-completion/completions/roskvidh.
# Made by tools/helps of what roskvidh --help prints.
_roskvidh() {
    local word=${COMP_WORDS[COMP_CWORD]} options
    COMPREPLY=()
    if [ "$COMP_CWORD" -eq 1 ]; then
        mapfile -t COMPREPLY < <(compgen -W "build get prefixes complete count list show cut scan replace add remove merge diff check stats convert recover help --help --version" -- "$word")
        return
    fi
    case ${COMP_WORDS[1]} in
        build) options="-o --output --reduced --unordered --strict --progress -h --help" ;;
        get) options="--limit -h --help" ;;
        prefixes) options="--limit -h --help" ;;
        complete) options="-n --most --best --within --limit -h --help" ;;
        count) options="--limit -h --help" ;;
        list) options="--from --prefix --limit -h --help" ;;
        show) options="--dot --limit -h --help" ;;
        cut) options="-s --sign --cheapest --costs --unknown --progress --limit -h --help" ;;
        scan) options="--only-longest --color --progress --limit -h --help" ;;
        replace) options="--strict --progress -h --help" ;;
        add) options="--store --strict --progress --limit -h --help" ;;
        remove) options="--progress --limit -h --help" ;;
        merge) options="-o --output --v1-0 --limit -h --help" ;;
        diff) options="--limit -h --help" ;;
        check) options="--limit -h --help" ;;
        stats) options="--chart --limit -h --help" ;;
        convert) options="-o --output --reduced --default --v1-0 --limit -h --help" ;;
        recover) options="-h --help" ;;
        *) options= ;;
    esac
    case $word in
        -*) mapfile -t COMPREPLY < <(compgen -W "$options" -- "$word") ;;
        *) mapfile -t COMPREPLY < <(compgen -f -- "$word") ;;
    esac
}
complete -o filenames -F _roskvidh roskvidh
