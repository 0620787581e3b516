# Completions of dmf and its tools for bash. What can be typed is read from the help of each, which is
# found on PATH.

# Prints the lines of a section of the help on a command, or of the general help.
_dmf_section() {
    command dmf ${2:+"$2"} --help 2>/dev/null </dev/null | sed -n "/^$1:\$/,/^\$/s/^  *//p"
}

_dmf_tools() {
    _dmf_section Tools | sed 's/ .*//'
}

_dmf_commands() {
    command dmf --help 2>/dev/null </dev/null | sed -n '/^\(Commands\|Tools\):$/,/^$/s/^  *\([^ ]*\).*/\1/p'
}

_dmf_options() {
    _dmf_section Options "$1" | grep -oE '^-[^ ]+( --[^ ]+)?' | tr -s ', ' '\n'
}

# Succeeds if an option of a command takes a value.
_dmf_takes_value() {
    _dmf_section Options "$1" | grep -qE -e "^(-., )?$2 <"
}

# Prints how many of the words after a command name a file.
_dmf_files() {
    local command=$1 count=0
    shift
    while [ $# -gt 0 ]; do
        case $1 in
        *[\<\>]*) shift ;;
        -?*) if _dmf_takes_value "$command" "$1"; then shift; fi ;;
        ?*) count=$((count + 1)) ;;
        esac
        shift || break
    done
    echo "$count"
}

# Prints the options of a tool, one a line, as in its help: `-h, --help`, `--table FILE`. The arguments are the tool: `dmf plan` or `dmf-plan`.
_dmf_tool_options() {
    {
        command "$@" --help
        echo
        command dmf help tables
    } 2>/dev/null </dev/null | sed -n '/^options:$/,/^$/s/^  \(-.*\)/\1/p' | sed 's/  .*//'
}

# Prints what the value of an option is, if it takes one. The arguments are the option and the tool.
_dmf_tool_value() {
    _dmf_tool_options "${@:2}" | sed -n -e "s/^\(.*, \)\{0,1\}$1 \([^ ,]*\).*/\2/p"
}

# Succeeds if the arguments of a tool that are not options are files.
_dmf_tool_takes_files() {
    command "$@" --help 2>/dev/null </dev/null | sed -n '/^positional arguments:$/,/^$/p' | grep -q -e '^  PROBLEM' -e '^  FILE'
}

# Completes the word at the cursor in a call of a tool. If COMPREPLY stays empty, bash completes file names, unless that is turned off.
_dmf_complete_tool() {
    local current=${COMP_WORDS[COMP_CWORD]} before=${COMP_WORDS[COMP_CWORD - 1]} value=
    [[ $before != -* ]] || value=$(_dmf_tool_value "$before" "$@")
    if [[ $before == *[\<\>]* || $value == FILE ]]; then
        return
    elif [ -z "$value" ] && [[ $current == -* ]]; then
        mapfile -t COMPREPLY < <(compgen -W "$(_dmf_tool_options "$@" | grep -oE -e '--?[a-z][-a-z]*')" -- "$current")
    elif [ -z "$value" ] && _dmf_tool_takes_files "$@"; then
        return
    fi
    compopt +o default 2>/dev/null
}

# Does the same in a call of dmf itself.
_dmf_complete_program() {
    local current=${COMP_WORDS[COMP_CWORD]} before=${COMP_WORDS[COMP_CWORD - 1]} command=${COMP_WORDS[1]}
    if [[ $before == *[\<\>]* ]]; then
        return
    elif [[ $current == -* ]]; then
        [ "$COMP_CWORD" -gt 1 ] || command=
        mapfile -t COMPREPLY < <(compgen -W "$(_dmf_options "$command")" -- "$current")
    elif [ "$COMP_CWORD" -eq 1 ]; then
        mapfile -t COMPREPLY < <(compgen -W "$(_dmf_commands)" -- "$current")
    elif [ "$command" = help ]; then
        mapfile -t COMPREPLY < <(compgen -W "$(_dmf_commands) tables" -- "$current")
    elif ! _dmf_takes_value "$command" "$before" &&
        [ "$(_dmf_files "$command" "${COMP_WORDS[@]:2:COMP_CWORD-2}")" -lt "$(_dmf_section Arguments "$command" | wc -l)" ]; then
        return
    fi
    compopt +o default 2>/dev/null
}

_dmf() {
    COMPREPLY=()
    if [ "$1" != "${1%dmf}" ]; then
        if [ "$COMP_CWORD" -gt 1 ] && _dmf_tools | grep -qFx -e "${COMP_WORDS[1]}"; then
            _dmf_complete_tool dmf "${COMP_WORDS[1]}"
        else
            _dmf_complete_program
        fi
    else
        _dmf_complete_tool "$1"
    fi
}

complete -o default -F _dmf dmf dmf-plan dmf-board dmf-sweep dmf-problem dmf-names dmf-dot
