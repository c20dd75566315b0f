# completion of tmpl-check for bash; made by completions/make.py
_tmpl_check() {
    local word=${COMP_WORDS[COMP_CWORD]} before=${COMP_WORDS[COMP_CWORD - 1]} it
    # readline may part --option=value at the sign
    [[ $word == = ]] && word=
    [[ $before == = ]] && before=${COMP_WORDS[COMP_CWORD - 2]}
    COMPREPLY=()
    for it in "${COMP_WORDS[@]:1:COMP_CWORD-1}"; do
        if [[ $it == -- ]]; then
            compopt -o filenames 2>/dev/null
            mapfile -t COMPREPLY < <(compgen -f -- "$word")
            return
        fi
    done
    case $before in
    --data) compopt -o filenames 2>/dev/null; mapfile -t COMPREPLY < <(compgen -f -- "$word"); return ;;
    --name) :; return ;;
    --schema) compopt -o filenames 2>/dev/null; mapfile -t COMPREPLY < <(compgen -f -- "$word"); return ;;
    --missingkey) mapfile -t COMPREPLY < <(compgen -W "default invalid zero error" -- "$word"); return ;;
    --stop) :; return ;;
    --writes) :; return ;;
    --library) compopt -o filenames 2>/dev/null; mapfile -t COMPREPLY < <(compgen -f -- "$word"); return ;;
    --format) mapfile -t COMPREPLY < <(compgen -W "text json sarif" -- "$word"); return ;;
    --map) :; return ;;
    esac
    if [[ $word == -* ]]; then
        mapfile -t COMPREPLY < <(compgen -W "--data --name --schema --missingkey --stop --no-counterexamples --writes --library --strict --format --infer --map --help" -- "$word")
    else
        compopt -o filenames 2>/dev/null
        mapfile -t COMPREPLY < <(compgen -f -- "$word")
    fi
}
complete -F _tmpl_check tmpl-check
