# Read by the scripts at the top before something is built: what can be said of the arguments is said at once, as the program would say it.
# tests/faces holds the two against one another.
# shellcheck shell=sh disable=SC2154

# Ends as the program does on arguments that it cannot take: the reason, a line of usage, status 2.
refuse() {
    say "$1"
    printf '%s\n' "usage: hemvuda TOOL [options] [FILE..]; hemvuda help says more" >&2
    exit 2
}

# Prints the usage of the command or of a tool, and ends.
explain() {
    cat -- "$root/tools/usage/$1" || exit 2
    exit 0
}

# Ends with 2 and the system's reason where the file $1 cannot be read. A pipe or a device is not tried, since that takes what it gives.
see_file() {
    if [ "$1" = - ] || [ -p "$1" ] || [ -c "$1" ] || [ -b "$1" ]; then
        return 0
    fi
    why=$(LC_ALL=C head -c 1 -- "$1" 2>&1 > /dev/null) && return 0
    fail "$1: ${why##*: }"
}

# Whether the word says a cause.
is_cause() {
    case $1 in
    '' | *[!0-9]* | ???*) return 1 ;;
    esac
    [ "$1" -ge 1 ] && [ "$1" -le 25 ]
}

look_at_topic() {
    [ $# -gt 0 ] || explain hemvuda
    case $1 in
    normal | check | same | why | help | version) explain "$1" ;;
    esac
    is_cause "$1" || refuse "there is no tool and no cause $1"
}

look() {
    [ $# -gt 0 ] || refuse "no tool is named"
    tool=$1
    shift
    case $tool in
    normal | check | same | why | help | version) ;;
    -h | --help) tool=help ;;
    --version) tool=version ;;
    *) refuse "there is no tool $tool" ;;
    esac
    to='' is_next='' is_in_place='' is_ended='' asks_help='' standard=''
    # The words are taken off one by one, and those that are files put behind.
    for word; do
        shift
        if [ -n "$is_next" ]; then
            is_next='' to=file
            continue
        fi
        if [ "$word" = - ]; then
            set -- "$@" - && standard=$standard-
            continue
        fi
        case $is_ended$word in
        --) is_ended=yes ;;
        -h | --help) asks_help=yes ;;
        -*)
            case $tool$word in
            check-d | same-q) ;;
            normal-w)
                [ -z "$to" ] || refuse "-o and -w do not go together"
                is_in_place=yes
                ;;
            normal-o)
                [ -z "$is_in_place" ] || refuse "-o and -w do not go together"
                [ -z "$to" ] || refuse "-o is there twice"
                is_next=yes
                ;;
            *) refuse "there is no option $word" ;;
            esac
            ;;
        *) set -- "$@" "$word" ;;
        esac
    done
    [ -z "$is_next" ] || refuse "no file behind -o"
    [ -z "$asks_help" ] || explain "$tool"
    case $standard in
    --*) refuse "standard input is named twice" ;;
    esac
    case $tool in
    normal)
        if [ -n "$is_in_place" ]; then
            [ $# -gt 0 ] || refuse "no file for -w"
            [ -z "$standard" ] || refuse "standard input cannot be written in place"
        else
            [ $# -le 1 ] || refuse "several files, and no -w"
        fi
        ;;
    same) [ $# -eq 2 ] || refuse "same takes two files" ;;
    why) [ $# -le 1 ] || refuse "why takes one file" ;;
    version) [ $# -eq 0 ] || refuse "version takes no file" ;;
    help)
        [ $# -le 1 ] || refuse "help takes one tool or number"
        look_at_topic "$@"
        return
        ;;
    esac
    for word; do
        see_file "$word"
    done
}
