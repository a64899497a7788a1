# bash completion for cobs_watch
_cobs_watch() {
    local cur=${COMP_WORDS[COMP_CWORD]} prev=${COMP_WORDS[COMP_CWORD - 1]} words
    local show='--as --only --number --time --partial --color --crc --crc-order --length --sentinel --skip-first --count --help'
    local send='--hex --sentinel --crc --crc-order --help'
    local checks='crc-8 crc-16-ccitt-false crc-16-modbus crc-16-xmodem crc-16-kermit crc-16-arc crc-32 crc-32c'
    COMPREPLY=()
    # Readline splits --time=utc into three words.
    if [ "$cur" = = ]; then
        cur=
    elif [ "$prev" = = ]; then
        prev=${COMP_WORDS[COMP_CWORD - 2]}
    fi
    case $prev in
    --as) words='hex text raw json dump pcap' ;;
    -t | --time) words='start last utc local' ;;
    --color) words='auto always never' ;;
    -o | --only) words='message broken too-long bad-crc unfinished' ;;
    --crc) words=$checks ;;
    --crc-order) words='big little' ;;
    --length | --sentinel) return ;;
    *)
        case $cur:${COMP_WORDS[1]} in
        -*:send) words=$send ;;
        -*:show) words=$show ;;
        -*) words="$show --version" ;;
        *:send) return ;;
        *)
            compopt -o default
            [ "$COMP_CWORD" != 1 ] || words='show send'
            ;;
        esac
        ;;
    esac
    # Kinds follow one another with commas between them.
    local front=
    [[ $cur != *,* ]] || front=${cur%,*},
    mapfile -t COMPREPLY < <(compgen -P "$front" -W "$words" -- "${cur##*,}")
}
complete -F _cobs_watch cobs_watch
