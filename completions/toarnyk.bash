# Completion for bash, made by front/pages.py from front/commands.py.

_toarnyk_files() {
    local file
    compopt -o filenames 2>/dev/null
    COMPREPLY=($(compgen -d -- "$word"))
    while IFS= read -r file; do COMPREPLY+=("$file"); done < <(compgen -f -X "!*.$1" -- "$word")
    [ "$1" != '*' ] || COMPREPLY=($(compgen -f -- "$word"))
}

# the signals of a table that have rows; one signal a line, as in tables/
_toarnyk_signals() {
    [ ! -f "$1" ] || sed -n 's/.*"name": *"\([^"]*\)".*"at": *\[.*/\1/p' "$1"
}

_toarnyk() {
    local IFS=$' \t\n' commands='pins tree resolve check case can i2s dma ioc board explain trace code lint view install help'
    local word=${COMP_WORDS[COMP_CWORD]} before=${COMP_WORDS[COMP_CWORD - 1]} first=1 options='' names=0
    COMPREPLY=()
    [ "${COMP_WORDS[1]}" != --quiet ] || first=2
    if [ "$COMP_CWORD" -le "$first" ]; then
        COMPREPLY=($(compgen -W "$commands --quiet --help --version" -- "$word"))
        return
    fi
    local command=${COMP_WORDS[first]}
    case $command in
        pins) options="--need" ;;
        tree) options="--vdd" ;;
        resolve) options="--vdd --need --hclk --pclk1 --pclk2 --free --workers --proof" ;;
        check) options="--vdd --need --hclk --pclk1 --pclk2 --free" ;;
        case) options="--workers" ;;
        dma) options="--workers" ;;
        ioc) options="--vdd --need --hclk --pclk1 --pclk2 --free --workers" ;;
        board) options="--vdd --need --hclk --pclk1 --pclk2 --free" ;;
        explain) options="--vdd --need --hclk --pclk1 --pclk2 --free" ;;
        trace) options="--vdd" ;;
        code) options="--vdd --need --hclk --pclk1 --pclk2 --free --workers -o" ;;
        lint) options="--need --off" ;;
        view) options="--vdd --need --hclk --pclk1 --pclk2 --free --workers" ;;
    esac
    case $command in
        pins) names=2 ;;
        tree) names=2 ;;
        resolve) names=2 ;;
        check) names=3 ;;
        case) names=1 ;;
        can) names=5 ;;
        i2s) names=3 ;;
        dma) names=2 ;;
        ioc) names=2 ;;
        board) names=2 ;;
        explain) names=2 ;;
        trace) names=4 ;;
        code) names=2 ;;
        lint) names=2 ;;
        view) names=2 ;;
        install) names=1 ;;
        help) names=1 ;;
    esac
    if [ $((COMP_CWORD - first)) -gt "$names" ]; then
        case $before in
        --need) COMPREPLY=($(compgen -W "$(_toarnyk_signals "${COMP_WORDS[first + 1]}")" -- "$word")); return ;;
        --vdd) return ;;
        --hclk) return ;;
        --pclk1) return ;;
        --pclk2) return ;;
        --free) COMPREPLY=($(compgen -W "pins clock all none" -- "$word")); return ;;
        --workers) return ;;
        -o) _toarnyk_files c; return ;;
        --off) COMPREPLY=($(compgen -W "two-pins needed-twice interrupt-number unlisted-pin no-row shared-block timer-channel partial-interface pin-state open-drain pull-key other-key interrupt-edge low-speed usb-hsi pll-range" -- "$word")); return ;;
        esac
        COMPREPLY=($(compgen -W "$options" -- "$word"))
        return
    fi
    case $command:$((COMP_CWORD - first)) in
        pins:1) _toarnyk_files json ;;
        pins:2) _toarnyk_files ioc ;;
        tree:1) _toarnyk_files json ;;
        tree:2) _toarnyk_files ioc ;;
        resolve:1) _toarnyk_files json ;;
        resolve:2) _toarnyk_files ioc ;;
        check:1) _toarnyk_files json ;;
        check:2) _toarnyk_files ioc ;;
        check:3) _toarnyk_files '*' ;;
        case:1) : ;;
        can:1) _toarnyk_files json ;;
        can:2) _toarnyk_files ioc ;;
        can:3) : ;;
        can:4) : ;;
        can:5) : ;;
        i2s:1) _toarnyk_files json ;;
        i2s:2) _toarnyk_files ioc ;;
        i2s:3) : ;;
        dma:1) _toarnyk_files json ;;
        dma:2) : ;;
        ioc:1) _toarnyk_files json ;;
        ioc:2) _toarnyk_files ioc ;;
        board:1) _toarnyk_files json ;;
        board:2) _toarnyk_files ioc ;;
        explain:1) _toarnyk_files json ;;
        explain:2) _toarnyk_files ioc ;;
        trace:1) _toarnyk_files json ;;
        trace:2) _toarnyk_files ioc ;;
        trace:3) _toarnyk_files '*' ;;
        trace:4) _toarnyk_files '*' ;;
        code:1) _toarnyk_files json ;;
        code:2) _toarnyk_files ioc ;;
        lint:1) _toarnyk_files json ;;
        lint:2) _toarnyk_files ioc ;;
        view:1) _toarnyk_files json ;;
        view:2) _toarnyk_files ioc ;;
        install:1) COMPREPLY=($(compgen -d -- "$word")) ;;
        help:1) COMPREPLY=($(compgen -W "$commands" -- "$word")) ;;
    esac
}

complete -F _toarnyk toarnyk
