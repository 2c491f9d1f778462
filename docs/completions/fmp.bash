# Completion of fmp for bash. Made by checks/program/manual.py from the program's help.
_fmp() {
    local word=${COMP_WORDS[COMP_CWORD]} before=${COMP_WORDS[COMP_CWORD-1]} words=""
    COMPREPLY=()
    if [ "$COMP_CWORD" -eq 1 ]; then
        COMPREPLY=($(compgen -W "check build sim host help -h --help -V --version" -- "$word"))
        return
    fi
    case $before in
        --bound|--turns|--ticks|--tick-us|--int) COMPREPLY=(); return ;;
    esac
    case ${COMP_WORDS[1]} in
        check) words="-h --help" ;;
        build) words="-h --help" ;;
        sim) words="--bound -h --help" ;;
        host) words="--turns --ticks --tick-us --int --bound -h --help" ;;
        help) COMPREPLY=($(compgen -W "check build sim host" -- "$word")); return ;;
    esac
    case $word in
        -*) COMPREPLY=($(compgen -W "$words" -- "$word")) ;;
        *) COMPREPLY=($(compgen -f -- "$word")) ;;
    esac
}
complete -o filenames -F _fmp fmp
