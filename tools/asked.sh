# What a tool is asked: read by the other tools. A tool's own first lines are its help.
set -u
tool=$(basename "$0")
here=$(cd "$(dirname "$0")" && pwd -P) || exit 2

# The lines of a tool that say what it does.
usage() {
    sed -n '2,${/^#/!q; s/^# \{0,1\}//; p;}' "$0"
}

# Says why a tool ends, on one line.
stop() { # WHY
    echo "$tool: $1" >&2
    exit 2
}

# A word is wrong.
wrong() { # WHY
    stop "$1; $(usage | sed -n '/^usage: /{p;q;}')"
}

# Whether a file can be read.
readable() { # FILE
    if [ -d "$1" ]; then stop "$1 cannot be read: it is a directory"; fi
    if [ ! -e "$1" ]; then stop "$1 cannot be read: there is no such file"; fi
    if [ ! -r "$1" ]; then stop "$1 cannot be read: it is not permitted"; fi
}

# Says what a tool does where that is asked for.
help_asked() { # WORD ...
    for word; do
        case $word in
        --) return ;;
        -h | --help)
            usage
            exit 0
            ;;
        esac
    done
}

# Takes the words of a tool that reads one file, and makes it standard input. Options that the tool knows, it takes itself.
ask() { # WORD ...
    help_asked "$@"
    file=- named=
    while [ $# -gt 0 ]; do
        case $1 in
        --)
            shift
            while [ $# -gt 0 ]; do take "$1" && shift; done
            break
            ;;
        -?*) known "$1" || wrong "there is no option $1" ;;
        *) take "$1" ;;
        esac
        shift
    done
    if [ "$file" != - ]; then
        readable "$file"
        exec <"$file" || exit 2
    fi
}

# Takes a word as the file's name.
take() { # WORD
    [ -z "$named" ] || wrong "$1 is a word too many"
    file=$1 named=yes
}

# Whether an option is the tool's own; a tool that has some says which.
known() { # OPTION
    false
}
