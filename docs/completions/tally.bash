# Completions of tally for bash, made by bench/man.py.
_tally() {
    local word=${COMP_WORDS[COMP_CWORD]} before=${COMP_WORDS[COMP_CWORD - 1]}
    if [[ $word == = ]]; then word=; elif [[ $before == = ]]; then before=${COMP_WORDS[COMP_CWORD - 2]}; fi
    COMPREPLY=()
    case $before in
    -d | --max-depth) compopt +o default; return ;;
    -n | --largest) compopt +o default; return ;;
    -t | --threshold) compopt +o default; return ;;
    -E | --exclude) compopt +o default; return ;;
    -X | --exclude-from) return ;;
    -j | --threads) compopt +o default; return ;;
    esac
    if [[ $word == -* ]]; then COMPREPLY=($(compgen -W "-d --max-depth -a --all -n --largest -s --summarize -c --total -t --threshold --plain -0 --print0 --json -h --human-readable --si -k --kibibytes -m --mebibytes -b --bytes --apparent -l --count-links --exclude-hidden -E --exclude -X --exclude-from --ignore -x --one-file-system -L --follow --sort -j --threads --help -V --version" -- "$word")); fi
}
complete -o default -F _tally tally
