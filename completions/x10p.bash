# Completion of x10p for bash: source this file, for example in ~/.bashrc.
# Written by completions/make from the program's help; change that, not this.
# shellcheck shell=bash disable=SC2034

# _x10p_has COMMAND: its options, and what is offered for the value of an option and for each argument; which options may lack
# their value; where COMMAND is empty, those of the program
_x10p_has() {
    options=() values=() optional=() arguments=()
    case $1 in
    '')
        options=(-h --help -V --version)
        arguments=('words asm list check verify bounds frame explain run runs audit trace draw help')
        ;;
    asm)
        options=(--explain --color -h --help)
        values=([--explain]='words yes no' [--color]='words auto always never')
        optional=(--explain)
        arguments=('files asm x10' 'files asm x10')
        ;;
    list)
        options=(--verbose --json --explain --color -h --help)
        values=([--explain]='words yes no' [--color]='words auto always never')
        optional=(--explain)
        arguments=('files asm x10')
        ;;
    check)
        options=(--json --explain --color -h --help)
        values=([--explain]='words yes no' [--color]='words auto always never')
        optional=(--explain)
        arguments=('files asm x10')
        ;;
    verify)
        options=(--explain --color -h --help)
        values=([--explain]='words yes no' [--color]='words auto always never')
        optional=(--explain)
        arguments=('files asm x10')
        ;;
    bounds)
        options=(--explain --color -h --help)
        values=([--explain]='words yes no' [--color]='words auto always never')
        optional=(--explain)
        arguments=('files asm x10')
        ;;
    frame)
        options=(--places --explain --color -h --help)
        values=([--places]='nothing' [--explain]='words yes no' [--color]='words auto always never')
        optional=(--explain)
        arguments=('nothing')
        ;;
    explain)
        options=(-h --help)
        arguments=('words Word Number Count Order Label Text Limit Entry Nesting Jump LoopSlot CallOrder Atomic TooLarge Index Unset Kind Home Result places turns file usage thread refused differs open Memory Short Magic Version Reserved Code Trailing Head Image Place Taken Key Frame Printed Spelling Ending FrameType Tag')
        ;;
    run)
        options=(--places --limit --schedule --seed --explain --color --threads --log --json --stats --verbose -h --help)
        values=([--places]='nothing' [--limit]='nothing' [--schedule]='words rounds random oldest newest' [--seed]='nothing' [--explain]='words yes no' [--color]='words auto always never' [--log]='files log')
        optional=(--explain)
        arguments=('files asm x10')
        ;;
    runs)
        options=(--seeds --places --limit --explain --color -h --help)
        values=([--seeds]='nothing' [--places]='nothing' [--limit]='nothing' [--explain]='words yes no' [--color]='words auto always never')
        optional=(--explain)
        arguments=('files asm x10')
        ;;
    audit)
        options=(--json --explain --color -h --help)
        values=([--explain]='words yes no' [--color]='words auto always never')
        optional=(--explain)
        arguments=('files asm x10' 'files log')
        ;;
    trace)
        options=(--places --limit --schedule --seed --explain --color --from --to --log --verbose -h --help)
        values=([--places]='nothing' [--limit]='nothing' [--schedule]='words rounds random oldest newest' [--seed]='nothing' [--explain]='words yes no' [--color]='words auto always never' [--from]='nothing' [--to]='nothing' [--log]='files log')
        optional=(--explain)
        arguments=('files asm x10')
        ;;
    draw)
        options=(--places --limit --schedule --seed --explain --color --from --to --log -h --help)
        values=([--places]='nothing' [--limit]='nothing' [--schedule]='words rounds random oldest newest' [--seed]='nothing' [--explain]='words yes no' [--color]='words auto always never' [--from]='nothing' [--to]='nothing' [--log]='files log')
        optional=(--explain)
        arguments=('files asm x10' 'files svg html')
        ;;
    help)
        arguments=('words asm list check verify bounds frame explain run runs audit trace draw help')
        ;;
    esac
}

# _x10p_offer KIND WORD..: of the words those that begin as the one at the cursor; or files that end in one of them, and folders
_x10p_offer() {
    local kind=$1
    shift
    case $kind in
    words) mapfile -t COMPREPLY < <(compgen -W "$*" -- "$word") ;;
    files)
        # refused where nobody types
        compopt -o filenames 2>/dev/null
        mapfile -t COMPREPLY < <(
            for ending; do compgen -f -X "!*.$ending" -- "$word"; done
            compgen -d -- "$word"
        )
        ;;
    esac
}

# _x10p_offer_options: those that weren't given yet
_x10p_offer_options() {
    local each left=()
    for each in "${options[@]}"; do
        [[ $given == *" $each "* ]] || left+=("$each")
    done
    _x10p_offer words "${left[@]}"
}

_x10p() {
    local IFS=$' \t\n' word=${COMP_WORDS[COMP_CWORD]} command='' option='' given=' ' only_arguments='' count=0 each at
    local -a options optional arguments what
    local -A values
    COMPREPLY=()
    _x10p_has ''
    for ((at = 1; at < COMP_CWORD; at++)); do
        each=${COMP_WORDS[at]}
        if [ -n "$option" ]; then
            # its value, or the sign before that
            [ "$each" = = ] || option=''
        elif [ -n "$only_arguments" ] || [[ $each != -?* ]]; then
            if [ -n "$command" ]; then
                ((++count))
            else
                command=$each
                _x10p_has "$command"
            fi
        elif [ "$each" = -- ]; then
            only_arguments=yes
        else
            given+="$each "
            [ -z "${values[$each]+value}" ] || [[ " ${optional[*]} " == *" $each "* && ${COMP_WORDS[at + 1]-} != = ]] || option=$each
        fi
    done
    [ "$word" != = ] || word=''
    if [ -n "$option" ]; then
        read -ra what <<<"${values[$option]}"
        _x10p_offer "${what[@]}"
    elif [[ -z $only_arguments && $word == -* ]]; then
        _x10p_offer_options
    elif [ "$count" -lt ${#arguments[@]} ]; then
        read -ra what <<<"${arguments[count]}"
        _x10p_offer "${what[@]}"
    elif [ -z "$only_arguments" ]; then
        _x10p_offer_options
    fi
}

complete -F _x10p x10p
