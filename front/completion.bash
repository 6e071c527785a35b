# Completes the words of `caliper` and `cali` in bash: source it, or put it where bash-completion
# looks for `caliper` and `cali`.

# Offers words that begin as the one at the cursor, or else the files of an ending.
_cali_words() {
    mapfile -t COMPREPLY < <(compgen -W "$1" -- "$2")
}

_cali_files() {
    mapfile -t COMPREPLY < <(compgen -f -X "!*.$1" -- "$2"; compgen -d -S / -- "$2")
    compopt -o nospace 2>/dev/null
    # a file is a whole word, and a folder isn't
    if [ ${#COMPREPLY[@]} -eq 1 ] && [[ ${COMPREPLY[0]} != */ ]]; then
        compopt +o nospace 2>/dev/null
    fi
}

_cali() {
    local at=${COMP_WORDS[COMP_CWORD]} before=${COMP_WORDS[COMP_CWORD - 1]}
    COMPREPLY=()
    if [ "$COMP_CWORD" -eq 1 ]; then
        _cali_words 'query profile --help --version' "$at"
        return
    fi
    case $before in
    -q | --query) return ;;
    -Q | --query-file) _cali_files calql "$at"; return ;;
    -o | --output) mapfile -t COMPREPLY < <(compgen -f -- "$at"); return ;;
    esac
    local options='-q --query -Q --query-file -t --table -T --tree -j --json -e --expand
        -G --globals -o --output -h --help'
    case ${COMP_WORDS[1]},$at in
    query,-*) _cali_words "$options" "$at" ;;
    profile,-*) _cali_words "$options --threads" "$at" ;;
    query,*) _cali_files cali "$at" ;;
    profile,*) _cali_files script "$at" ;;
    esac
}

# What is behind a command's `=` is a word of its own to bash, and is completed as one.
_caliper() {
    local at=${COMP_WORDS[COMP_CWORD]} before=${COMP_WORDS[COMP_CWORD - 1]}
    local option=$before
    [ "$at" = = ] && at=
    [ "$before" = = ] && option=${COMP_WORDS[COMP_CWORD - 2]}
    COMPREPLY=()
    if [ "$COMP_CWORD" -eq 1 ]; then
        _cali_words 'serial replay journal live query watch files names gen --help --version' "$at"
        return
    fi
    case $option in
    '<')
        local ending=script
        [[ ${COMP_WORDS[1]} = query || ${COMP_WORDS[1]} = watch ]] && ending=cali
        [[ ${COMP_WORDS[1]} = names ]] && ending=names
        _cali_files "$ending" "$at"
        return
        ;;
    --clock) _cali_words 'script real' "$at"; return ;;
    --globals) _cali_words 'off join' "$at"; return ;;
    --print) _cali_words 'script summary' "$at"; return ;;
    --trigger) _cali_words 'main slow' "$at"; return ;;
    --in) _cali_files cali "$at"; return ;;
    --q | --room | --seed | --threads | --lines) return ;;
    esac
    case ${COMP_WORDS[1]} in
    replay | journal) _cali_words '--clock=script --clock=real' "$at" ;;
    live) _cali_words '--clock=script --clock=real --room=' "$at" ;;
    query) _cali_words '--q= --globals=off --globals=join' "$at" ;;
    watch) _cali_words '--q= --trigger=main --trigger=slow' "$at" ;;
    files) _cali_words '--in= --q=' "$at" ;;
    gen) _cali_words '--seed= --threads= --lines= --print=script --print=summary' "$at" ;;
    esac
    [[ ${COMPREPLY[0]} != *= ]] || compopt -o nospace 2>/dev/null
}

complete -F _cali cali
complete -F _caliper caliper
