# bash completion of topk. Where it is installed as <prefix>/share/bash-completion/completions/topk, bash loads it by itself.

_topk() {
    local current=${COMP_WORDS[COMP_CWORD]} previous=${COMP_WORDS[COMP_CWORD - 1]} options word
    COMPREPLY=()
    if ((COMP_CWORD == 1)); then
        mapfile -t COMPREPLY < <(compgen -W 'run one compare judge make bulk node serve' -- "$current")
        return
    fi
    case ${COMP_WORDS[1]} in
        run) options='--workers --page --ahead' ;;
        make) options='--start --count --lists' ;;
        bulk) options='--start --count --lists --queries --workers --page --ahead' ;;
        node) options='--at --conns --version' ;;
        serve) options='--at --conns --workers --page --ahead' ;;
        *) return ;;
    esac
    # Each option takes a number, which is the user's to give.
    [[ $previous == --?* || $previous == = ]] && return
    if [[ ${COMP_WORDS[1]} == @(run|node|serve) && $current != -* ]]; then
        compopt -o filenames 2> /dev/null
        mapfile -t COMPREPLY < <(compgen -f -- "$current")
        return
    fi
    # An option is given once.
    for word in "${COMP_WORDS[@]:2}"; do
        [[ $word == "$current" ]] || options=" $options " options=${options/ $word / }
    done
    mapfile -t COMPREPLY < <(compgen -W "$options" -- "$current")
}

complete -F _topk topk
