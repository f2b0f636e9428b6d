# Completions of walk for bash, made by bench/man.py.
_walk() {
    local word=${COMP_WORDS[COMP_CWORD]} before=${COMP_WORDS[COMP_CWORD - 1]}
    if [[ $word == = ]]; then word=; elif [[ $before == = ]]; then before=${COMP_WORDS[COMP_CWORD - 2]}; fi
    COMPREPLY=()
    case $before in
    --min) compopt +o default; return ;;
    --max) compopt +o default; return ;;
    --batch) compopt +o default; return ;;
    --crew) compopt +o default; return ;;
    esac
    if [[ $word == -* ]]; then COMPREPLY=($(compgen -W "--tree --sort --hidden --follow --usage --min --max --batch --crew" -- "$word")); fi
}
complete -o default -F _walk walk
