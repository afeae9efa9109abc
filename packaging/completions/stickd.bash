# Completion of stickd for bash. packaging/completions.py wrote this from the help of stickd: edit it there.

_stickd() {
    local word=${COMP_WORDS[COMP_CWORD]} before=${COMP_WORDS[COMP_CWORD - 1]} command=${COMP_WORDS[1]} choices=()
    COMPREPLY=()
    # In `--option=value` the `=` is a word of its own.
    if [[ $word == '=' ]]; then
        word=
    elif [[ $before == '=' ]]; then
        before=${COMP_WORDS[COMP_CWORD - 2]}
    fi
    # What the option before wants; else what the command has.
    case "$command $before" in
        "adopt --frontend" | "check --shards" | "check --frontend" | "ctl --watch" | "ctl --timeout" | "reload --timeout" | "replay --shards" | "replay --purge" | "replay --ipv4-prefix" | "replay --ipv6-prefix" | "run --threads" | "run --frontend" | "run --bind" | "run --shards" | "run --purge" | "run --ipv4-prefix" | "run --ipv6-prefix" | "run --save-every" | "run --connections" | "run --backlog" | "run --timeout-connect" | "run --retries" | "run --timeout-client" | "run --timeout-server" | "run --timeout-fin" | "run --keepalive" | "run --tcp-user-timeout" | "run --accept-proxy" | "run --timeout-header" | "run --socket-mode" | "run --socket-level" | "run --socket-clients" | "run --timeout-socket" | "run --stats-clients" | "run --metrics" | "run --report" | "run --drain" | "run --stop-after" | "run --roll-at" | "stop --drain" | "stop --timeout" | "top --table" | "top --by" | "top --rows")
            return
            ;;
        "check --load" | "ctl --socket" | "ctl --to" | "reload --stats-socket" | "replay --load" | "run --socket" | "run --load" | "run --save" | "run --stats-socket" | "stop --stats-socket" | "top --socket")
            compopt -o filenames 2>/dev/null
            choices=(-f)
            ;;
        "ctl --as")
            choices=(-W "csv json nft ipset")
            ;;
        "run --socket-group")
            choices=(-g)
            ;;
    esac
    if ((COMP_CWORD == 1)); then
        choices=(-W "adopt check ctl reload replay run stop top help -h --help -V --version")
    fi
    ((${#choices[@]})) || case "$command ${word:0:1}" in
        "adopt -")
            choices=(-W "--anyway --command --first-server --frontend --verbose -h --help")
            ;;
        "adopt "*)
            compopt -o filenames 2>/dev/null
            choices=(-f)
            ;;
        "check -")
            choices=(-W "--all --explain --load --shards --haproxy --first-server --frontend -h --help")
            ;;
        "check "*)
            compopt -o filenames 2>/dev/null
            choices=(-f)
            ;;
        "ctl -")
            choices=(-W "--socket --json --watch --to --as --timeout -h --help")
            ;;
        "ctl "*)
            return
            ;;
        "reload -")
            choices=(-W "--stats-socket --timeout -h --help")
            ;;
        "replay -")
            choices=(-W "--shards --purge --ipv4-prefix --ipv6-prefix --load -h --help")
            ;;
        "replay "*)
            compopt -o filenames 2>/dev/null
            choices=(-f)
            ;;
        "run -")
            choices=(-W "--socket --threads --check --haproxy --anyway --first-server --frontend --bind --shards --purge --ipv4-prefix --ipv6-prefix --load --load-lenient --save --save-every --connections --backlog --timeout-connect --retries --timeout-client --timeout-server --timeout-fin --keepalive --tcp-user-timeout --accept-proxy --proxies-only --timeout-header --send-proxy --send-proxy-v2 --socket-mode --socket-group --socket-level --socket-clients --timeout-socket --stats-socket --stats-clients --metrics --report --log-rejected --drain --stop-after --roll-at -h --help")
            ;;
        "run "*)
            compopt -o filenames 2>/dev/null
            choices=(-f)
            ;;
        "stop -")
            choices=(-W "--stats-socket --drain --timeout -h --help")
            ;;
        "top -")
            choices=(-W "--socket --table --by --rows -h --help")
            ;;
        "help "*)
            choices=(-W "adopt check ctl reload replay run stop top help")
            ;;
    esac
    ((${#choices[@]})) && mapfile -t COMPREPLY < <(compgen "${choices[@]}" -- "$word")
}
complete -F _stickd stickd
