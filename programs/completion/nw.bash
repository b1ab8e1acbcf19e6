# nw.bash: bash's completion of nw's commands, topics, options and files. It asks nw itself, so that it offers what this nw has.
# shellcheck shell=bash

# _nw_listed WHAT WORD..: the commands, topics or options that nw tells of after these words.
_nw_listed() {
    local told
    told=$("${@:2}" --help 2>/dev/null)
    case $1 in
    commands) sed -n 's/^  nw \([a-z-]*\) .*/\1/p' <<<"$told" ;;
    topics) tr -s '[:space:]' ' ' <<<"$told" | grep -o 'nw help [a-z][a-z]*' | sed 's/.* //' ;; # its lines may be broken anywhere
    *) sed -n 's/^  \(--[a-z]*\).*/\1/p' <<<"$told" ;;
    esac
}

_nw() {
    local nw=${COMP_WORDS[0]} current=${COMP_WORDS[COMP_CWORD]} before=${COMP_WORDS[COMP_CWORD - 1]} word words='' files=no
    if [ "$COMP_CWORD" -eq 1 ]; then words=$(_nw_listed commands "$nw")
    elif [ "${COMP_WORDS[1]}" = help ]; then words=$(_nw_listed commands "$nw" | grep -v -e '^-' -e '^help$'; _nw_listed topics "$nw")
    elif [ "$before" = --auxiliary ]; then words='24 32'
    elif [ "$before" = --at ]; then words=now
    elif [ "$before" = --offset ] || [ "$before" = --code ]; then words=
    else files=yes; fi
    for word in "${COMP_WORDS[@]:2:COMP_CWORD-2}"; do [ "$word" != -- ] || files=only; done
    if [ $files = yes ] && [[ $current == -* ]]; then words=$(_nw_listed options "$nw" "${COMP_WORDS[1]}"); fi
    if [ $files != no ] && [ -z "$words" ]; then
        compopt -o filenames 2>/dev/null
        mapfile -t COMPREPLY < <(compgen -f -- "$current")
    else mapfile -t COMPREPLY < <(compgen -W "$words" -- "$current"); fi
}

complete -F _nw nw
