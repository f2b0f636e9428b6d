# Completions of since for bash, made by bench/man.py.
_since() {
    local word=${COMP_WORDS[COMP_CWORD]} before=${COMP_WORDS[COMP_CWORD - 1]}
    if [[ $word == = ]]; then word=; elif [[ $before == = ]]; then before=${COMP_WORDS[COMP_CWORD - 2]}; fi
    COMPREPLY=()
    case $before in
    -j | --threads) compopt +o default; return ;;
    -d | --max-depth) compopt +o default; return ;;
    -E | --exclude) compopt +o default; return ;;
    esac
    if [[ $word == -* ]]; then COMPREPLY=($(compgen -W "--save --quick --rows -l --long -0 --print0 --json -q --quiet -j --threads --exclude-hidden -x --one-file-system -d --max-depth -E --exclude --ignore -h --help -V --version" -- "$word")); fi
}
complete -o default -F _since since
