# Completion of adjudicate for bash. Written by tools/words from what the program prints; a change here doesn't stay.

# The options of a command, each with the word for its value, if it has one.
_adjudicate_options()
{
    case $1 in
        judge) echo '--tables=DIR --manifest=FILE --lazy' ;;
        probe) echo '--tables=DIR --manifest=FILE --lazy' ;;
        probes) echo '--tables=DIR --manifest=FILE --all-tables --memory=MB --json --determined --soon --progress' ;;
        root) echo '--tables=DIR --manifest=FILE --all-tables --memory=MB --json --determined' ;;
        moves) echo '--san' ;;
        serve) echo '--tables=DIR --manifest=FILE --bind=ADDR --memory=MB --requests=N --games=DIR --other=DIR --log' ;;
        game) echo '--tables=DIR --manifest=FILE --all-tables --delay=N --san' ;;
        games) echo '--tables=DIR --manifest=FILE --all-tables --memory=MB --delay=N --progress' ;;
        follow) echo '--tables=DIR --manifest=FILE --all-tables --delay=N --san' ;;
        pgn) echo '--tables=DIR --manifest=FILE --all-tables --memory=MB --delay=N --json --differ' ;;
        enter) echo '--name=NAME --start=FEN --from=FILE --tables=DIR --manifest=FILE --delay=N --games=DIR --new' ;;
        send) echo '--name=NAME --start=FEN --tables=DIR --manifest=FILE --delay=N --game=FILE --bind=ADDR --to=ADDR[,ADDR] --wait=MS --tries=N --key=FILE --san --new' ;;
        status) echo '--games=DIR --other=DIR --prometheus --json' ;;
        record) echo '--games=DIR' ;;
        audit) echo '--name=NAME --start=FEN --tables=DIR --manifest=FILE --delay=N --games=DIR --other=DIR' ;;
        listen) echo '--name=NAME --start=FEN --tables=DIR --me=1|2 --bind=ADDR --to=ADDR[,ADDR] --kept=FILE --datagrams=N --delay=N --fetch --ready --key=FILE' ;;
        host) echo '--games=DIR --tables=DIR --manifest=FILE --bind=ADDR --to=ADDR[,ADDR] --me=1|2 --at-once=N --cache=N --datagrams=N --key=FILE --log=all|changes|none --store=sqlite|files --log-failures-ignored' ;;
        run) echo '--tables=DIR --cache=N --delay=N' ;;
        list) echo '--progress' ;;
        check) echo '--manifest=FILE --progress' ;;
    esac
}

# The words of a command.
_adjudicate_words()
{
    case $1 in
        judge) echo 'FEN' ;;
        probe) echo 'FEN' ;;
        root) echo 'FEN' ;;
        moves) echo 'FEN' ;;
        game) echo 'FEN' ;;
        follow) echo 'FEN' ;;
        pgn) echo 'FILE' ;;
        record) echo 'FILE STAMP' ;;
        audit) echo 'FILE' ;;
        list) echo 'DIR' ;;
        check) echo 'DIR' ;;
    esac
}

# The games of the folder that stands behind --games.
_adjudicate_stamps()
{
    local place file
    for ((place = 1; place < COMP_CWORD; place++)); do
        if [[ ${COMP_WORDS[place]} == --games ]]; then
            for file in "${COMP_WORDS[place + 1]}"/*.game; do
                [[ -e $file ]] && file=${file##*/} && echo "${file%.game}"
            done
        fi
    done
}

# The values of a word: folders, files, games or these words.
_adjudicate_values()
{
    local word=${COMP_WORDS[COMP_CWORD]} stamps
    case $1 in
        DIR) compopt -o filenames; mapfile -t COMPREPLY < <(compgen -d -- "$word") ;;
        FILE) compopt -o filenames; mapfile -t COMPREPLY < <(compgen -f -- "$word") ;;
        STAMP) mapfile -t COMPREPLY < <(compgen -W "$(_adjudicate_stamps)" -- "$word") ;;
        *'|'*) mapfile -t COMPREPLY < <(compgen -W "${1//|/ }" -- "$word") ;;
    esac
}

_adjudicate()
{
    local word=${COMP_WORDS[COMP_CWORD]} before=${COMP_WORDS[COMP_CWORD - 1]} options value
    COMPREPLY=()
    if ((COMP_CWORD == 1)) || [[ $COMP_CWORD == 2 && $before == help ]]; then
        mapfile -t COMPREPLY < <(compgen -W 'judge probe probes root moves serve game games follow pgn enter send status record audit listen host run show list check version help' -- "$word")
        return
    fi
    options=$(_adjudicate_options "${COMP_WORDS[1]}")
    for value in $options; do
        if [[ $value == "$before="* ]]; then
            _adjudicate_values "${value#*=}"
            return
        fi
    done
    if [[ $word == -* ]]; then
        mapfile -t COMPREPLY < <(compgen -W "$(sed 's/=[^ ]*//g' <<< "$options") --help" -- "$word")
        return
    fi
    for value in $(_adjudicate_words "${COMP_WORDS[1]}"); do
        [[ $value == FILE && " ${COMP_WORDS[*]} " == *' --games '* ]] || _adjudicate_values "$value"
        ((${#COMPREPLY[@]})) && return
    done
}

complete -F _adjudicate adjudicate
