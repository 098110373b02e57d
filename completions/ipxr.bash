# Completes the words of ipxr and ipxr-gateway in bash. It needs nothing but bash.

# The folders, and the files of a pattern that begin with a word; where there is no such file, any file.
_ipxr_files() {
    local word=$1 pattern=$2
    compopt -o filenames 2>/dev/null
    mapfile -t COMPREPLY < <(compgen -f -X "!$pattern" -- "$word")
    if [ ${#COMPREPLY[@]} = 0 ]; then
        mapfile -t COMPREPLY < <(compgen -f -- "$word")
    else
        mapfile -t -O ${#COMPREPLY[@]} COMPREPLY < <(compgen -d -- "$word")
    fi
}

_ipxr() {
    local word=${COMP_WORDS[COMP_CWORD]} file=2
    COMPREPLY=()
    if [ "$COMP_CWORD" = 1 ]; then
        mapfile -t COMPREPLY < <(compgen -W "replay internet decode" -- "$word")
        return
    fi
    [ "${COMP_WORDS[2]}" != -- ] || file=3
    [ "$COMP_CWORD" = $file ] || return
    case ${COMP_WORDS[1]} in
    replay) _ipxr_files "$word" '*.script' ;;
    internet) _ipxr_files "$word" '*.internet' ;;
    decode) _ipxr_files "$word" '*.pcap' ;;
    esac
}

# What may stand behind a word that asks a gateway.
_ipxr_gateway_asking() {
    case $1 in
    show) echo "links clients stations peers routes services edge counts events --json --prometheus --status" ;;
    *) echo "--status" ;;
    esac
}

_ipxr_gateway() {
    local word=${COMP_WORDS[COMP_CWORD]} first=${COMP_WORDS[1]}
    COMPREPLY=()
    case ${COMP_WORDS[COMP_CWORD - 1]} in
    --pcap) _ipxr_files "$word" '*.pcap' && return ;;
    --status) _ipxr_files "$word" '*' && return ;;
    --status-web) return ;;
    esac
    if [ "$COMP_CWORD" -gt 1 ] && [[ $first =~ ^(show|ping|trace|reload)$ ]]; then
        mapfile -t COMPREPLY < <(compgen -W "$(_ipxr_gateway_asking "$first")" -- "$word")
    elif [[ $word == -* ]]; then
        mapfile -t COMPREPLY < <(compgen -W "--cards --check --example --help --log --pcap --status --status-web --version" -- "$word")
    else
        _ipxr_files "$word" '*.conf'
        [ "$COMP_CWORD" != 1 ] || mapfile -t -O ${#COMPREPLY[@]} COMPREPLY < <(compgen -W "show ping trace reload try key" -- "$word")
    fi
}

complete -F _ipxr ipxr
complete -F _ipxr_gateway ipxr-gateway
