# Completions of dmf and its tools for fish. What can be typed is read from the help of each, which is found on PATH.

# Prints the lines of a section of the help on a command, or of the general help.
function __dmf_section
    command dmf $argv[2] --help 2>/dev/null </dev/null | sed -n "/^$argv[1]:\$/,/^\$/s/^  *//p"
end

# Prints each command and each tool with what it does.
function __dmf_commands
    begin
        __dmf_section Commands
        __dmf_section Tools
    end | string replace -r '^(\S+)\s+' '$1\t'
end

# Prints the words that were typed after the program's name.
function __dmf_words
    set -l words (commandline -opc)
    string join \n -- $words[2..]
end

# Succeeds if an option of a command takes a value.
function __dmf_takes_value
    __dmf_section Options $argv[1] | string match -qr -- "^(-., )?$argv[2] <"
end

# Prints the tool that was typed, in one word or two: `dmf-plan`, or `dmf` and `plan`. Fails if it is the program.
function __dmf_tool
    set -l words (commandline -opc)
    set -l name (string split -r -m 1 / -- $words[1] | tail -n 1)
    if test $name != dmf
        echo $name
    else if set -q words[2]
        and __dmf_section Tools | string match -qr -- "^$words[2] "
        string join \n $name $words[2]
    else
        return 1
    end
end

# Prints the lines of a section of a tool's help. The options that say what a table is are in a text of their own.
function __dmf_tool_section
    set -l tool (__dmf_tool)
    or return
    begin
        command $tool --help
        echo
        command dmf help tables
    end 2>/dev/null </dev/null | sed -n "/^$argv[1]:\$/,/^\$/s/^  //p"
end

# Prints what the value of the tool's option before the cursor is, if it takes one.
function __dmf_tool_value
    set -l words (commandline -opc)
    set -q words[2]
    and string match -q -- '-*' $words[-1]
    and __dmf_tool_section options | string replace -rf -- "^(?:.*, )?$words[-1] ([^ ,]+).*" '$1'
end

# Prints each option that may stand here, with what it does if the program has it.
function __dmf_options
    if __dmf_tool >/dev/null
        set -l value (__dmf_tool_value)
        test -z "$value"
        and for line in (__dmf_tool_section options | string match -r -- '^-.*')
            string match -ar -- '--?[a-z][-a-z]*' (string replace -r -- '  .*' '' $line)
        end
        return
    end
    set -l words (__dmf_words)
    for line in (__dmf_section Options $words[1])
        set -l parts (string match -r '^(-.*?)  +(.*)$' -- $line)
        or continue
        for option in (string match -ar -- '-[^ ,]+' $parts[2])
            printf '%s\t%s\n' $option $parts[3]
        end
    end
end

# Succeeds if a file may be named here in a call of a tool.
function __dmf_tool_wants_file
    set -l value (__dmf_tool_value)
    if test -n "$value"
        test "$value" = FILE
    else
        __dmf_tool_section 'positional arguments' | string match -qr -- '^(PROBLEM|FILE)'
    end
end

# Succeeds if a file may be named here in a call of the program: if a command that takes one has none yet.
function __dmf_wants_file
    if __dmf_tool >/dev/null
        __dmf_tool_wants_file
        return
    end
    set -l words (__dmf_words)
    set -q words[1]
    or return 1
    set -l count (__dmf_section Arguments $words[1] | count)
    set -l value_follows no
    for word in $words[2..]
        if test $value_follows = yes
            set value_follows no
        else if string match -q -- '-?*' $word
            __dmf_takes_value $words[1] $word
            and set value_follows yes
        else
            set count (math $count - 1)
        end
    end
    test $count -gt 0 -a $value_follows = no
end

# Succeeds if a command may be named here.
function __dmf_wants_command
    set -l words (__dmf_words)
    not set -q words[1]
    or test $words[1] = help
end

function __dmf_wants_help_on
    set -l words (__dmf_words)
    set -q words[1]
    and test $words[1] = help
end

for name in dmf dmf-plan dmf-board dmf-sweep dmf-problem dmf-names dmf-dot
    complete -c $name -e
    complete -c $name -f
    complete -c $name -a '(__dmf_options)'
    complete -c $name -n __dmf_wants_file -F
end
complete -c dmf -n __dmf_wants_command -a '(__dmf_commands)'
complete -c dmf -n __dmf_wants_help_on -a 'tables\t"the options that say what a table is"'
