# bash completion for avtp. Made by .ci/options from docs/options.tsv: edit that.
_avtp() {
    local cur=${COMP_WORDS[COMP_CWORD]} prev=${COMP_WORDS[COMP_CWORD - 1]} command=${COMP_WORDS[1]} words=''
    if [ "$COMP_CWORD" -eq 1 ]; then
        COMPREPLY=($(compgen -W 'show check listen talk soak agree gateway' -- "$cur"))
        return
    fi
    case $command:$prev in
        show:--limit) words='' ;;
        check:--limit) words='' ;;
        listen:--limit) words='' ;;
        listen:--buffer) words='' ;;
        listen:--room) words='' ;;
        listen:--look) words='' ;;
        listen:--lead) words='' ;;
        listen:--clock) words='' ;;
        listen:--crf-shift) words='' ;;
        listen:--ring) words='' ;;
        listen:--silence) words='zero am824' ;;
        talk:--kind) words='aaf am824 h264' ;;
        talk:--format) words='int16 int24 int32 float32' ;;
        talk:--rate) words='8000 16000 24000 32000 44100 48000 88200 96000 176400 192000' ;;
        talk:--channels) words='' ;;
        talk:--count) words='' ;;
        talk:--id) words='' ;;
        talk:--start) words='' ;;
        talk:--lead) words='' ;;
        talk:--restart) words='' ;;
        talk:--jump) words='' ;;
        talk:--crf) words='' ;;
        talk:--crf-interval) words='' ;;
        talk:--crf-points) words='' ;;
        talk:--crf-rate) words='' ;;
        talk:--crf-pull) words='' ;;
        agree:--limit) words='' ;;
        agree:--buffer) words='' ;;
        agree:--room) words='' ;;
        agree:--look) words='' ;;
        agree:--lead) words='' ;;
        agree:--clock) words='' ;;
        agree:--crf-shift) words='' ;;
        gateway:--limit) words='' ;;
        gateway:--buffer) words='' ;;
        gateway:--room) words='' ;;
        gateway:--look) words='' ;;
        gateway:--lead) words='' ;;
        gateway:--clock) words='' ;;
        gateway:--crf-shift) words='' ;;
        gateway:--to) words='am824 aaf' ;;
        gateway:--id) words='' ;;
        soak:soak) words='' ;;
        *) words=- ;;
    esac
    if [ "$words" != - ]; then
        COMPREPLY=($(compgen -W "$words" -- "$cur"))
    elif [ "${cur#-}" != "$cur" ]; then
        case $command in
            show) words='--limit' ;;
            check) words='--limit' ;;
            listen) words='--limit --buffer --room --look --lead --clock --crf-shift --ring --raw --silence --annexb' ;;
            talk) words='--kind --format --rate --channels --count --id --start --lead --sparse --restart --jump --crf --crf-interval --crf-points --crf-rate --crf-pull --last-stamp' ;;
            soak) words='' ;;
            agree) words='--limit --buffer --room --look --lead --clock --crf-shift' ;;
            gateway) words='--limit --buffer --room --look --lead --clock --crf-shift --to --id' ;;
        esac
        COMPREPLY=($(compgen -W "$words" -- "$cur"))
    else
        COMPREPLY=($(compgen -f -- "$cur"))
    fi
}
complete -o filenames -F _avtp avtp
_avtp_report() {
    local cur=${COMP_WORDS[COMP_CWORD]}
    if [ "${cur#-}" != "$cur" ]; then
        COMPREPLY=($(compgen -W '--html --help --version' -- "$cur"))
    else
        COMPREPLY=($(compgen -f -- "$cur"))
    fi
}
complete -o filenames -F _avtp_report avtp-report
