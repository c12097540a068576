# Completion of sblog for bash, written by tools/completions: source it, or put it into
# ~/.local/share/bash-completion/completions/sblog
_sblog_words() {
    [[ $word == -* ]] && COMPREPLY=($(compgen -W "$1" -- "$word"))
}
_sblog_files() {
    local end path
    compopt -o filenames 2> /dev/null
    mapfile -t COMPREPLY < <(compgen -d -- "$word"
        [[ -z $1 ]] && compgen -f -- "$word"
        for end in $1; do compgen -f -X "!*.$end" -- "$word"; done)
    [[ ${#COMPREPLY[@]} -gt 0 ]] || mapfile -t COMPREPLY < <(compgen -f -- "$word")
}
_sblog() {
    local word=${COMP_WORDS[COMP_CWORD]} before=${COMP_WORDS[COMP_CWORD - 1]}
    if [[ $COMP_CWORD -eq 1 ]]; then
        local names='run live draw check explain asm pack dis native migrate test build help --help --version'
        COMPREPLY=($(compgen -W "$names" -- "$word"))
        return
    fi
    case ${COMP_WORDS[1]} in
    run)
        _sblog_words '--json --names --help' || _sblog_files 'scenario'
        ;;
    live)
        case $before in
            --workers) COMPREPLY=($(compgen -W '' -- "$word")); return ;;
            --budget) COMPREPLY=($(compgen -W '' -- "$word")); return ;;
        esac
        _sblog_words '--workers --budget --help' || _sblog_files 'scenario'
        ;;
    draw)
        _sblog_words '--messages --help' || _sblog_files 'scenario'
        ;;
    check)
        _sblog_words '--help' || _sblog_files 'sbi'
        ;;
    explain)
        case $before in
            --source) _sblog_files o; return ;;
            --state) COMPREPLY=($(compgen -W '' -- "$word")); return ;;
            --form) COMPREPLY=($(compgen -W '1 2 3' -- "$word")); return ;;
            --function) COMPREPLY=($(compgen -W '' -- "$word")); return ;;
        esac
        _sblog_words '--why --source --state --form --function --help' || _sblog_files 'sbi'
        ;;
    asm)
        case $before in
            --state) COMPREPLY=($(compgen -W '' -- "$word")); return ;;
            --form) COMPREPLY=($(compgen -W '1 2 3' -- "$word")); return ;;
        esac
        _sblog_words '--state --form --help' || _sblog_files 's'
        ;;
    pack)
        case $before in
            --state) COMPREPLY=($(compgen -W '' -- "$word")); return ;;
            --form) COMPREPLY=($(compgen -W '1 2 3' -- "$word")); return ;;
            --function) COMPREPLY=($(compgen -W '' -- "$word")); return ;;
        esac
        _sblog_words '--state --form --function --help' || _sblog_files 'bin o'
        ;;
    dis)
        _sblog_words '--help' || _sblog_files 'sbi'
        ;;
    native)
        _sblog_words '--help' || _sblog_files 'sbi'
        ;;
    migrate)
        _sblog_words '--help' || _sblog_files 'sbi'
        ;;
    test)
        _sblog_words '--write --help' || _sblog_files 'scenario'
        ;;
    build)
        case $before in
            --state) COMPREPLY=($(compgen -W '' -- "$word")); return ;;
            --form) COMPREPLY=($(compgen -W '1 2 3' -- "$word")); return ;;
            --function) COMPREPLY=($(compgen -W '' -- "$word")); return ;;
        esac
        _sblog_words '--state --form --function --help' || _sblog_files 'c'
        ;;
    help)
        COMPREPLY=($(compgen -W 'run live draw check explain asm pack dis native migrate test build' -- "$word"))
        ;;
    esac
}
complete -F _sblog sblog ./sblog
