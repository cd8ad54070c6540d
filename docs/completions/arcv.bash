# Made by bin/pages. Do not edit.
_arcv() {
    local word=${COMP_WORDS[COMP_CWORD]} options=
    COMPREPLY=()
    if [ "$COMP_CWORD" -eq 1 ]; then
        COMPREPLY=($(compgen -W 'verify trace repair check apply solve lrat generate nodes prefers recheck' -- "$word"))
        return
    fi
    case ${COMP_WORDS[1]} in
        verify) options='' ;;
        trace) options='--down' ;;
        repair) options='--out --proof --max-price --conflicts' ;;
        check) options='' ;;
        apply) options='--out' ;;
        solve) options='--proof --conflicts' ;;
        lrat) options='' ;;
        generate) options='--proof' ;;
        nodes) options='' ;;
        prefers) options='' ;;
        recheck) options='' ;;
    esac
    case $word in
        -*) COMPREPLY=($(compgen -W "$options" -- "$word")) ;;
        *) COMPREPLY=($(compgen -f -- "$word")) ;;
    esac
}
complete -o filenames -F _arcv arcv
_arcv_tool() {
    local word=${COMP_WORDS[COMP_CWORD]} options=
    COMPREPLY=()
    case ${COMP_WORDS[0]##*/} in
        back) options='--help --copies --join --originals --arcv --out --json --force' ;;
        draw) options='--help --out --force' ;;
        enter) options='--help --copies --join --originals --arcv --out --json --force' ;;
        explain) options='--help --json --junit --html --rejected --ends --names --out --force' ;;
        pages) options='--help --check --force' ;;
        plan) options='--help --copies --join --originals --arcv --json' ;;
        policies) options='--help --out --names --json --force' ;;
        quiet) options='--help --to --adjacencies --rows --json --force' ;;
        refusals) options='--help --arcv --json' ;;
        repair-steps) options='--help --out --proof --after --max-price --conflicts --parts --no-sessions --arcv --json --force' ;;
        seal) options='--help --check --out --arcv --json --force' ;;
        start) options='--help --again --to --policies --names --rows --alone --json --arcv' ;;
    esac
    case $word in
        -*) COMPREPLY=($(compgen -W "$options" -- "$word")) ;;
        *) COMPREPLY=($(compgen -f -- "$word")) ;;
    esac
}
complete -o filenames -F _arcv_tool bin/back bin/draw bin/enter bin/explain bin/pages bin/plan bin/policies bin/quiet bin/refusals bin/repair-steps bin/seal bin/start
