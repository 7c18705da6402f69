# Completion of flow, flowkeep and flowdesk for bash: `source completions/flow.bash`, or by ./install.
# The modes and options are compared with the code by bench/words.py.

_flow_modes=(
    check
    drive
    run
    trace
    verify
    gen
    large
    audit
    duty
)

_flow_options=(
    --steps
    --workers
    --seed
    --size
)

# The words of an array that do not stand on the line yet.
_flow_unused() {
    local option word
    for option in "$@"; do
        for word in "${COMP_WORDS[@]:1:COMP_CWORD-1}"; do
            [[ $word == "$option" ]] && continue 2
        done
        printf '%s\n' "$option"
    done
}

# Whether the line has a mode before the word that is completed.
_flow_has_mode() {
    local mode word
    for word in "${COMP_WORDS[@]:1:COMP_CWORD-1}"; do
        for mode in "${_flow_modes[@]}"; do
            [[ $word == "$mode" ]] && return 0
        done
    done
    return 1
}

# The files whose names begin with a word.
_flow_files() {
    compopt -o filenames 2> /dev/null
    mapfile -t COMPREPLY < <(compgen -f -- "$1")
}

_flow() {
    local word=${COMP_WORDS[COMP_CWORD]} before=${COMP_WORDS[COMP_CWORD - 1]}
    COMPREPLY=()
    # behind an option stands its number
    [[ $before == --* || $before == '=' || $word == '=' ]] && return
    [[ $before == [\<\>]* ]] && _flow_files "$word" && return
    if [[ $COMP_CWORD -eq 1 && $word == -* ]]; then
        mapfile -t COMPREPLY < <(compgen -W "${_flow_options[*]} --help --version" -- "$word")
    elif [[ $word == -* ]] || _flow_has_mode; then
        mapfile -t COMPREPLY < <(compgen -W "$(_flow_unused "${_flow_options[@]}")" -- "$word")
    else
        mapfile -t COMPREPLY < <(compgen -W "${_flow_modes[*]}" -- "$word")
    fi
}

_flowkeep() {
    local word=${COMP_WORDS[COMP_CWORD]} before=${COMP_WORDS[COMP_CWORD - 1]}
    COMPREPLY=()
    [[ $before == --* || $before == '=' || $word == '=' ]] && return
    if [[ $word == -* ]]; then
        mapfile -t COMPREPLY < <(compgen -W "$(_flow_unused --steps --help)" -- "$word")
    else
        _flow_files "$word"
    fi
}

_flowdesk() {
    local word=${COMP_WORDS[COMP_CWORD]} before=${COMP_WORDS[COMP_CWORD - 1]}
    COMPREPLY=()
    case $before in
        --form)
            local forms="svg mermaid dot"
            [[ ${COMP_WORDS[1]} == log ]] && forms="text csv json"
            [[ ${COMP_WORDS[1]} == export ]] && forms="csv jsonl xes sql"
            mapfile -t COMPREPLY < <(compgen -W "$forms" -- "$word") && return
            ;;
        --state) mapfile -t COMPREPLY < <(compgen -W "open waiting finished stuck stuck_by_duties committed" -- "$word") && return ;;
        --rows) mapfile -t COMPREPLY < <(compgen -W "all journal tasks" -- "$word") && return ;;
        --journal | --log | --workflow | --policy | --map | --journals | --session | --query) _flow_files "$word" && return ;;
    esac
    if [[ $COMP_CWORD -eq 1 ]]; then
        local cases="new take done fail do rewind commit tidy todo why history undone facts report verify open"
        mapfile -t COMPREPLY < <(compgen -W "draw explain lint alone staffed log page list export move $cases --help --version" -- "$word")
    elif [[ $word == -* && ${COMP_WORDS[1]} == list ]]; then
        mapfile -t COMPREPLY < <(compgen -W "$(_flow_unused --for --state --older --workflow --jobs --json)" -- "$word")
    elif [[ $word == -* && ${COMP_WORDS[1]} == export ]]; then
        mapfile -t COMPREPLY < <(compgen -W "$(_flow_unused --form --rows --jobs)" -- "$word")
    elif [[ $word == -* && ${COMP_WORDS[1]} == page ]]; then
        mapfile -t COMPREPLY < <(compgen -W "$(_flow_unused --at --wait)" -- "$word")
    elif [[ $word == -* && ${COMP_WORDS[1]} == move ]]; then
        mapfile -t COMPREPLY < <(compgen -W "$(_flow_unused --workflow --policy --as --at --wait --json) --rename" -- "$word")
    elif [[ $word == -* && ${COMP_WORDS[1]} == new ]]; then
        mapfile -t COMPREPLY < <(compgen -W "$(_flow_unused --workflow --policy --tidy)" -- "$word")
    elif [[ $word == -* && ${COMP_WORDS[1]} != draw && ${COMP_WORDS[1]} != explain && ${COMP_WORDS[1]} != lint && ${COMP_WORDS[1]} != log && ${COMP_WORDS[1]} != alone && ${COMP_WORDS[1]} != staffed ]]; then
        mapfile -t COMPREPLY < <(compgen -W "$(_flow_unused --as --note --at --wait --json --quiet --ok)" -- "$word")
    elif [[ $word == -* && ${COMP_WORDS[1]} == explain ]]; then
        mapfile -t COMPREPLY < <(compgen -W "$(_flow_unused --circles --session --policy --leaf --journal --query --json)" -- "$word")
    elif [[ $word == -* && ${COMP_WORDS[1]} == lint ]]; then
        mapfile -t COMPREPLY < <(compgen -W "$(_flow_unused --policy --json)" -- "$word")
    elif [[ $word == -* && ( ${COMP_WORDS[1]} == alone || ${COMP_WORDS[1]} == staffed ) ]]; then
        mapfile -t COMPREPLY < <(compgen -W "$(_flow_unused --policy --states --json)" -- "$word")
    elif [[ $word == -* && ${COMP_WORDS[1]} == log ]]; then
        mapfile -t COMPREPLY < <(compgen -W "$(_flow_unused --workflow --case --activity --time --map --form --journals --jobs --budget)" -- "$word")
    elif [[ $word == -* ]]; then
        mapfile -t COMPREPLY < <(compgen -W "$(_flow_unused --journal --log --case --activity --time --map --form --title --fold --who)" -- "$word")
    else
        _flow_files "$word"
    fi
}

complete -F _flow flow
complete -F _flowkeep flowkeep
complete -F _flowdesk flowdesk
