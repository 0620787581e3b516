# shellcheck shell=sh
# What the command `dmf` does with its arguments: if the first one names a tool, it runs the tool;
# otherwise it runs the program. ./dmf and the launcher of an install source this file.

# Prints a text, and ends.
print_text() {
    # As for the program, a reader that has gone makes the write fail.
    trap '' PIPE
    cat -- "$1" || exit 4
    exit
}

# Runs the tool that the arguments name, or prints the text about tables. Returns if the arguments are
# meant for the program. The first two are the folder of the tools and the folder of the texts.
run_tool() {
    tools=$1
    texts=$2
    shift 2
    case ${1-} in
    plan | board | sweep | problem | names | dot)
        tool=$tools/dmf-$1
        shift
        exec "$tool" "$@"
        ;;
    help)
        case $#,${2-} in
        2,tables) print_text "$texts/tables.txt" ;;
        2,plan | 2,board | 2,sweep | 2,problem | 2,names | 2,dot) exec "$tools/dmf-$2" --help ;;
        esac
        ;;
    esac
}

# Runs the program with the arguments, and adds the tools to its help. The first two are the program
# and the folder of the texts.
run_program() {
    program=$1
    texts=$2
    shift 2
    case $#,${1-} in
    1,help | 1,--help | 1,-h)
        "$program" "$1" || exit
        print_text "$texts/tools.txt"
        ;;
    esac
    exec "$program" "$@"
}
