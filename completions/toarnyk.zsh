#compdef toarnyk
# Completion for zsh, made by front/pages.py from front/commands.py.

# the signals of a table that have rows; one signal a line, as in tables/
_toarnyk_signals() {
    [[ ! -f $1 ]] || sed -n 's/.*"name": *"\([^"]*\)".*"at": *\[.*/\1/p' $1
}

_toarnyk() {
    local -a commands options described
    local first=2 names=0
    commands=(pins tree resolve check case can i2s dma ioc board explain trace code lint view install help)
    described=(
        'pins:where each signal sits, and what must move when one more is needed'
        'tree:what the projects clock tree runs at, and the first limit that it breaks'
        'resolve:pins and clocks that meet every limit with the fewest changes, and a C function that sets them up'
        'check:whether a refutation, or the proof behind a report, holds'
        'case:solves a problem made from a number, which needs no files'
        'can:the bit timing of a CAN bus, for an exact rate and a sample point'
        'i2s:the PLLI2S for a sample rate, with the error that is left, and the C lines that set it up'
        'dma:a DMA stream for each request, or why they cannot all have one'
        'ioc:the projects text with the choice of `resolve` as its homes'
        'board:as `resolve`, for a board that is too wide to be ranked in one number'
        'explain:what the choice changes; or why nothing fits, and which one thing to give up'
        'trace:what a C text does to the registers, step by step, and where the chip is not in a legal state'
        'code:the C text of `resolve` alone, and on success alone'
        'lint:what the program takes as it stands and a person may not have meant'
        'view:one HTML page with the package, the clock tree and the C text'
        'install:puts program, tables, man page and completion under a folder, to run without the kit'
        'help:this help, or that of a command'
    )
    [[ ${words[2]} != --quiet ]] || first=3
    if (( CURRENT <= first )); then
        _describe command described
        compadd -- --quiet --help --version
        return
    fi
    case ${words[first]} in
        pins) options=(--need) ;;
        tree) options=(--vdd) ;;
        resolve) options=(--vdd --need --hclk --pclk1 --pclk2 --free --workers --proof) ;;
        check) options=(--vdd --need --hclk --pclk1 --pclk2 --free) ;;
        case) options=(--workers) ;;
        dma) options=(--workers) ;;
        ioc) options=(--vdd --need --hclk --pclk1 --pclk2 --free --workers) ;;
        board) options=(--vdd --need --hclk --pclk1 --pclk2 --free) ;;
        explain) options=(--vdd --need --hclk --pclk1 --pclk2 --free) ;;
        trace) options=(--vdd) ;;
        code) options=(--vdd --need --hclk --pclk1 --pclk2 --free --workers -o) ;;
        lint) options=(--need --off) ;;
        view) options=(--vdd --need --hclk --pclk1 --pclk2 --free --workers) ;;
    esac
    case ${words[first]} in
        pins) names=2 ;;
        tree) names=2 ;;
        resolve) names=2 ;;
        check) names=3 ;;
        case) names=1 ;;
        can) names=5 ;;
        i2s) names=3 ;;
        dma) names=2 ;;
        ioc) names=2 ;;
        board) names=2 ;;
        explain) names=2 ;;
        trace) names=4 ;;
        code) names=2 ;;
        lint) names=2 ;;
        view) names=2 ;;
        install) names=1 ;;
        help) names=1 ;;
    esac
    if (( CURRENT - first > names )); then
        case ${words[CURRENT - 1]} in
            --need) compadd -- $(_toarnyk_signals "${words[first + 1]}"); return ;;
            --vdd) _message MV; return ;;
            --hclk) _message HZ; return ;;
            --pclk1) _message HZ; return ;;
            --pclk2) _message HZ; return ;;
            --free) compadd pins clock all none; return ;;
            --workers) _message N; return ;;
            -o) _files -g '*.c(-.)'; return ;;
            --off) compadd two-pins needed-twice interrupt-number unlisted-pin no-row shared-block timer-channel partial-interface pin-state open-drain pull-key other-key interrupt-edge low-speed usb-hsi pll-range; return ;;
        esac
        compadd -a -- options
        return
    fi
    case ${words[first]}:$(( CURRENT - first )) in
        pins:1) _files -g '*.json(-.)' ;;
        pins:2) _files -g '*.ioc(-.)' ;;
        tree:1) _files -g '*.json(-.)' ;;
        tree:2) _files -g '*.ioc(-.)' ;;
        resolve:1) _files -g '*.json(-.)' ;;
        resolve:2) _files -g '*.ioc(-.)' ;;
        check:1) _files -g '*.json(-.)' ;;
        check:2) _files -g '*.ioc(-.)' ;;
        check:3) _files ;;
        case:1) _message number ;;
        can:1) _files -g '*.json(-.)' ;;
        can:2) _files -g '*.ioc(-.)' ;;
        can:3) _message number ;;
        can:4) _message number ;;
        can:5) _message number ;;
        i2s:1) _files -g '*.json(-.)' ;;
        i2s:2) _files -g '*.ioc(-.)' ;;
        i2s:3) _message number ;;
        dma:1) _files -g '*.json(-.)' ;;
        dma:2) _message number ;;
        ioc:1) _files -g '*.json(-.)' ;;
        ioc:2) _files -g '*.ioc(-.)' ;;
        board:1) _files -g '*.json(-.)' ;;
        board:2) _files -g '*.ioc(-.)' ;;
        explain:1) _files -g '*.json(-.)' ;;
        explain:2) _files -g '*.ioc(-.)' ;;
        trace:1) _files -g '*.json(-.)' ;;
        trace:2) _files -g '*.ioc(-.)' ;;
        trace:3) _files ;;
        trace:4) _files ;;
        code:1) _files -g '*.json(-.)' ;;
        code:2) _files -g '*.ioc(-.)' ;;
        lint:1) _files -g '*.json(-.)' ;;
        lint:2) _files -g '*.ioc(-.)' ;;
        view:1) _files -g '*.json(-.)' ;;
        view:2) _files -g '*.ioc(-.)' ;;
        install:1) _files -/ ;;
        help:1) compadd -a commands ;;
    esac
}

_toarnyk "$@"
