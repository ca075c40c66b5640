# Completion of isearch and isearch_live for bash: `source` this file, or put it into bash's folder of completions.
# Its one rule: what is offered is what the command that stands first takes, each option once.

# The options of a command, a word each.
_isearch_options() {
    local tree="--segments --leaf --workers --breaks"
    case $1 in
        nearest) echo "--k $tree --queues --raw --index --certificate --sealed" ;;
        range) echo "$tree --raw" ;;
        verify) echo "--k --segments --breaks --raw" ;;
        windows) echo "--k $tree --queues --sealed --raw --apart" ;;
        discord) echo "--k $tree --raw" ;;
        trial) echo "--k $tree --queues --sealed" ;;
        convert) echo "--raw" ;;
        save) echo "$tree --raw" ;;
    esac
}

# How many files a command names, before its numbers.
_isearch_files() {
    case $1 in
        verify) echo 3 ;;
        nearest | range | windows) echo 2 ;;
        discord | convert | save) echo 1 ;;
        *) echo 0 ;;
    esac
}

# How many of the words that stand before the one at hand are no options and no values of options.
_isearch_placed() {
    local placed=0 at
    for ((at = 2; at < COMP_CWORD; at++)); do
        case ${COMP_WORDS[at]} in
            --certificate | --sealed) ;;
            --*) [[ ${COMP_WORDS[at + 1]} == = ]] && ((at += 2)) || ((at += 1)) ;;
            *) ((placed += 1)) ;;
        esac
    done
    echo $placed
}

_isearch() {
    local word=${COMP_WORDS[COMP_CWORD]} before=${COMP_WORDS[COMP_CWORD - 1]} command=${COMP_WORDS[1]} left option
    [[ $word == = ]] && word=""
    [[ $before == = ]] && before=${COMP_WORDS[COMP_CWORD - 2]}
    COMPREPLY=()
    if ((COMP_CWORD == 1)); then
        mapfile -t COMPREPLY < <(compgen -W "nearest range verify windows discord trial convert save" -- "$word")
    elif [[ $before == --breaks ]]; then
        mapfile -t COMPREPLY < <(compgen -W "flat bent" -- "$word")
    elif [[ $before == --index ]]; then
        mapfile -t COMPREPLY < <(compgen -f -- "$word")
    elif [[ $before == --* && $before != --certificate && $before != --sealed ]]; then
        return # a number
    elif [[ $word == -* ]]; then
        for option in $(_isearch_options "$command"); do
            [[ " ${COMP_WORDS[*]} " == *" $option "* && $option != "$word" ]] || left+=" $option"
        done
        mapfile -t COMPREPLY < <(compgen -W "$left" -- "$word")
    elif (($(_isearch_placed) < $(_isearch_files "$command"))); then
        mapfile -t COMPREPLY < <(compgen -f -- "$word")
    fi
}

_isearch_live() {
    COMPREPLY=()
    ((COMP_CWORD == 1)) && mapfile -t COMPREPLY < <(compgen -f -- "${COMP_WORDS[COMP_CWORD]}")
}

complete -o filenames -F _isearch isearch
complete -o filenames -F _isearch_live isearch_live
