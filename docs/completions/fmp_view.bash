# Completion of fmp_view for bash. Made by checks/program/manual.py from the program's help.
_fmp_view() {
    local word=${COMP_WORDS[COMP_CWORD]} before=${COMP_WORDS[COMP_CWORD-1]} words=""
    COMPREPLY=()
    if [ "$COMP_CWORD" -eq 1 ]; then
        COMPREPLY=($(compgen -W "code fault run step lsp drive why explore diff expect test stats waves timeline export import help -h --help -V --version" -- "$word"))
        return
    fi
    case $before in
        --recording|--lcov|--coverage|--expect|--out|--junit|--src|--c|--toppers) COMPREPLY=($(compgen -f -- "$word")); return ;;
        --events|--seed|--bound|--at|--never|--alone|--rest|--ints|--int|--gap|--queued|--states|--time|--jobs|--seeds|--every-tick|--from|--to|-D|--define) COMPREPLY=(); return ;;
        --ticks) COMPREPLY=($(compgen -W "any idle" -- "$word")); return ;;
        --format) COMPREPLY=($(compgen -W "vcd perfetto tlv res" -- "$word")); return ;;
    esac
    case ${COMP_WORDS[1]} in
        code) words="-h --help"; [[ $word == -* ]] || { COMPREPLY=($(compgen -W "E_OK E_SYS E_NOSPT E_RSATR E_PAR E_ID E_CTX E_ILUSE E_OBJ E_QOVR E_RLWAI E_TMOUT F_OVF F_DIV F_IDX B1 B2 B3 B4 B5 B6 B7 B9 L1 L2 L3 L4 L5 L6 S1 S2 S3 H4 H5 R1 R2 R3" -- "$word")); return; } ;;
        fault) words="--json -h --help" ;;
        run) words="--recording --json --places --lcov --coverage --calls --events --seed --bound -h --help" ;;
        step) words="--json --bound -h --help" ;;
        lsp) words="-h --help" ;;
        drive) words="--events --seed --bound -h --help" ;;
        why) words="--recording --bound --at --json -h --help" ;;
        explore) words="--never --alone --rest --expect --ticks --ints --int --gap --queued --bound --states --time --jobs --all --answers --strict --out --json --junit --no-settings -h --help" ;;
        diff) words="--recordings --bound -h --help" ;;
        expect) words="--recording --bound --src --strict --json --junit --no-settings -h --help" ;;
        test) words="--expect --seeds --events --every-tick --int --bound --jobs --json --junit --lcov --coverage --no-settings -h --help" ;;
        stats) words="--recording --bound --src --json -h --help" ;;
        waves) words="--recording --bound --format -h --help" ;;
        timeline) words="--recording --bound --from --to --src --objects --html -h --help" ;;
        export) words="--c --toppers --fmp3 --line-directives -h --help" ;;
        import) words="-D --define --out -h --help" ;;
        help) COMPREPLY=($(compgen -W "code fault run step lsp drive why explore diff expect test stats waves timeline export import" -- "$word")); return ;;
    esac
    case $word in
        -*) COMPREPLY=($(compgen -W "$words" -- "$word")) ;;
        *) COMPREPLY=($(compgen -f -- "$word")) ;;
    esac
}
complete -o filenames -F _fmp_view fmp_view
