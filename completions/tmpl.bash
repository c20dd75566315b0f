# completion of tmpl for bash; made by completions/make.py
_tmpl() {
    local word=${COMP_WORDS[COMP_CWORD]} before=${COMP_WORDS[COMP_CWORD - 1]} it
    # readline may part --option=value at the sign
    [[ $word == = ]] && word=
    [[ $before == = ]] && before=${COMP_WORDS[COMP_CWORD - 2]}
    COMPREPLY=()
    for it in "${COMP_WORDS[@]:1:COMP_CWORD-1}"; do
        if [[ $it == -- ]]; then
            compopt -o filenames 2>/dev/null
            mapfile -t COMPREPLY < <(compgen -f -- "$word")
            return
        fi
    done
    case $before in
    --data) compopt -o filenames 2>/dev/null; mapfile -t COMPREPLY < <(compgen -f -- "$word"); return ;;
    --missingkey) mapfile -t COMPREPLY < <(compgen -W "default invalid zero error" -- "$word"); return ;;
    --name) :; return ;;
    --depth) :; return ;;
    --steps) :; return ;;
    esac
    if [[ $word == -* ]]; then
        mapfile -t COMPREPLY < <(compgen -W "--data --missingkey --name --depth --steps --print --help" -- "$word")
    else
        compopt -o filenames 2>/dev/null
        mapfile -t COMPREPLY < <(compgen -f -- "$word")
    fi
}
complete -F _tmpl tmpl
