# Completions of renamer and its tools for bash.

# Sets COMPREPLY to what may follow: a value of the option before, or else a job, or an option of the job that was not
# given yet. $2 is the word that was begun, and $3 the one before.
_renamer() {
    local word=$2 before=$3 words='' given
    # In `--width=4` the sign is a word.
    [[ $word != = ]] || word=
    [[ $before != = ]] || before=${COMP_WORDS[COMP_CWORD - 2]}
    case $before in
        # Files follow, which bash looks for if nothing else is offered.
        *'<' | *'>') ;;
        --network) words='bitonic periodic tree' ;;
        --width) words='2 4 8 16 32 64 128 256' ;;
        --workers | --hand) words=$(echo {1..64}) ;;
        --form) words='report grants' ;;
        renamer | */renamer) words='run replay check show help --help --version' ;;
        help) words='run replay check show' ;;
        *)
            case ${COMP_WORDS[1]} in
                run) words=' --network --width --workers --hand --form --carry --large --together --help ' ;;
                replay | show) words=' --network --width --help ' ;;
                check) words=' --width --large --help ' ;;
            esac
            for given in "${COMP_WORDS[@]:2:COMP_CWORD-2}"; do
                words=${words/ "$given" / }
            done
            ;;
    esac
    mapfile -t COMPREPLY < <(compgen -W "$words" -- "$word")
}

# The same for a tool; files follow where nothing else is offered.
_renamer_tool() {
    local word=$2 before=$3 words='' given
    [[ $word != = ]] || word=
    [[ $before != = ]] || before=${COMP_WORDS[COMP_CWORD - 2]}
    case $before in
        --network) words='bitonic periodic tree' ;;
        --width) words='2 4 8 16 32 64 128 256' ;;
        --clients | --seed | --epochs | --at | --beat) return ;;
        --column | --epoch | --name | --delimiter) return ;;
        --replay | --output | *'<' | *'>') ;;
        *)
            case ${COMP_WORDS[0]##*/} in
                renamer-number) words=' --column --share --epoch --name --delimiter --help ' ;;
                renamer-picture) words=' --replay --output --at --table --beat --help ' ;;
                renamer-schedule) words=' --clients --seed --network --width --epochs --help ' ;;
            esac
            for given in "${COMP_WORDS[@]:1:COMP_CWORD-1}"; do
                words=${words/ "$given" / }
            done
            # Where a file may stand, options are offered once one is begun.
            [[ $word == -* || ${COMP_WORDS[0]} != *renamer-@(number|picture) ]] || words=
            ;;
    esac
    mapfile -t COMPREPLY < <(compgen -W "$words" -- "$word")
}

complete -o default -F _renamer renamer
complete -o default -F _renamer_tool renamer-number renamer-picture renamer-schedule
