# Completion of desync for bash: the command, names of files, the options. Source it, or let
# `make install` put it where bash-completion looks.

# Completes the names of files.
_desync_files() {
    compopt -o filenames 2>/dev/null
    local IFS=$'\n'
    COMPREPLY=($(compgen -f -- "$1"))
}

_desync() {
    local word=${COMP_WORDS[COMP_CWORD]} command=${COMP_WORDS[1]} option= names=0 given= plain= i
    COMPREPLY=()
    if [ "$COMP_CWORD" -eq 1 ]; then
        local commands="run clock check graph replay accept demo period clusters rate times"
        COMPREPLY=($(compgen -W "$commands" -- "$word"))
        return
    fi
    # the option that waits for its value, and how many names stand in front
    for ((i = 2; i < COMP_CWORD; i++)); do
        if [ "$plain" ]; then
            names=$((names + 1))
            continue
        fi
        case ${COMP_WORDS[i]} in
            --) plain=1 ;;
            --clusters | --graph | --groups | --jobs | --slack | --stop)
                option=${COMP_WORDS[i]} given+=" $option"
                ;;
            --*) given+=" ${COMP_WORDS[i]}" ;;
            =) ;;
            *) if [ "$option" ]; then option=; else names=$((names + 1)); fi ;;
        esac
    done
    if [ "$word" = = ]; then
        word=
    fi
    case $option in
        --clusters) COMPREPLY=($(compgen -W "each one bus" -- "$word")) ;;
        --graph | --groups) _desync_files "$word" ;;
    esac
    if [ "$option" ]; then
        return
    fi
    local options= most=0
    case $command in
        run) options="--clusters --graph --groups --jobs --log --slack --stop" most=2 ;;
        clock) most=2 ;;
        check) most=1 ;;
        graph) options="--clusters --groups --shake --slack" most=1 ;;
        replay) options="--clusters --graph --groups --slack --transparent" most=3 ;;
        accept) options="--clusters --groups --slack" most=2 ;;
        period) options="--clusters --graph --groups --slack" most=2 ;;
        clusters) options="--clusters --groups" most=1 ;;
        rate) most=2 ;;
        times) options="--clusters --graph --groups --slack" most=2 ;;
        demo) options=--jobs ;;
    esac
    if [[ $word == -* && -z $plain ]]; then
        local left= it
        for it in $options; do
            [[ " $given " == *" $it "* ]] || left+=" $it"
        done
        COMPREPLY=($(compgen -W "$left" -- "$word"))
    elif [ "$names" -lt "$most" ]; then
        _desync_files "$word"
    fi
}

complete -F _desync desync
