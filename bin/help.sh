# shellcheck shell=sh disable=SC2034,SC2154
# What `bin/tau` answers by itself: `help`, `help COMMAND` and `version`. Nothing is built for it.

manual=$root/docs/manual.md

# A section of the manual by its heading.
section() {
    awk -v heading="## $1" '/^```/ { inside = !inside } /^## / && !inside { shown = $0 == heading } shown' "$manual"
}

# The first block of what comes.
first_block() {
    awk '/^```/ { blocks++; next } blocks == 1 { print "    " $0 }'
}

# The commands, a line each.
command_lines() {
    section Words | awk -F ' *\\| *' '/^\| `/ { gsub(/`/, ""); printf "    %-10s%s\n", $2 " " $3, $6 }'
}

overview() {
    echo "Tau runs programs of transactors, and judges what such runs wrote:"
    echo
    section bin/tau | first_block
    echo
    command_lines
    echo
    echo "\`bin/tau help COMMAND\` tells of one command. Where to read on, in $root:"
    echo
    echo "    docs/tutorial.md   nine steps, each a program with a failure"
    echo "    docs/patterns.md   what is often asked then, and six patterns"
    echo "    docs/manual.md     words, statuses, faults of inputs, and each command"
    echo "    docs/language.md   the language of behaviours"
}

help_on() {
    case $1 in
    help | version | decisions | prove) section bin/tau ;;
    *)
        if ! has "$commands gather atlas " "$1"; then
            say "\`$1\` is no command; \`bin/tau help\` tells which there are"
            exit 2
        fi
        section "$1"
        ;;
    esac
}

# The commit where this is a clone, and the kit with which the README says that all is proved.
version() {
    commit=
    [ ! -e "$root/.git" ] || commit=$(git -C "$root" rev-parse --short HEAD 2>/dev/null) || :
    echo "tau${commit:+ $commit}"
    # shellcheck disable=SC2016
    sed -n 's/.*Proved with the kit `\([^`]*\)`.*/\1/p' "$root/README.md"
}

text_of() {
    case ${1-help} in
    version | --version) version ;;
    help) if [ "$#" -eq 2 ]; then help_on "$2"; else overview; fi ;;
    *) overview ;;
    esac
}

answer() {
    text=$(text_of "$@") || exit "$?"
    printf '%s\n' "$text" 2>/dev/null || give_up "writing failed"
}
