# shellcheck shell=sh disable=SC2034,SC2154
# Looks at the words of a call as the program reads them: a part of bin/tau. The table of words is bin/words.sh.

# Whether a list of words, with blanks around it, has this word.
has() {
    case $1 in *" $2 "*) ;; *) false ;; esac
}

# Whether a command reads standard input.
reads() {
    has "$reading" "$1"
}

# Whether a command has a journal, in tau.journal of the present folder.
keeps() {
    has ' keep resume ' "$1"
}

is_number() {
    case ${1#+} in "" | *[!0-9]*) false ;; esac
}

# The digits of a number, without `+`, without zeros before it and without commas.
digits_of() {
    digits=${1#+}
    while :; do
        case $digits in
        *,*) digits=${digits%%,*}${digits#*,} ;;
        0?*) digits=${digits#0} ;;
        *) break ;;
        esac
    done
}

# Whether the first of two numbers is the greater one. (they may have more digits than the shell can count, and 40 at most where it matters)
is_greater() {
    digits_of "$1"
    first=$digits
    digits_of "$2"
    [ "${#first}" -le "${#digits}" ] || return 0
    [ "${#first}" -eq "${#digits}" ] || return 1
    [ "${#first}" -gt 18 ] || {
        [ "$first" -gt "$digits" ]
        return
    }
    first_end=${first#??????????} end=${digits#??????????}
    [ "${first%"$first_end"}" -gt "${digits%"$end"}" ] ||
        { [ "${first%"$first_end"}" -eq "${digits%"$end"}" ] && [ "$first_end" -gt "$end" ]; }
}

# Whether a word is a number in the range of an option or of a command.
is_in_range() {
    is_number "$2" || return 1
    range=$(range_of "$1")
    ! is_greater "${range%% *}" "$2" && ! is_greater "$2" "${range##* }"
}

# Keeps what is told of the first word that is wrong.
blame() {
    [ -n "$wrong" ] || wrong=$*
}

# The value of an option, or the number of a command.
look_at_value() {
    case $(range_of "$1"):$2 in
    [0-9]*:) blame "the number behind $1 is missing" ;;
    *:) blame "the name behind $1 is missing" ;;
    [0-9]*) is_in_range "$1" "$2" || blame "$1 wants a number from $(range_of "$1"), and \`$2\` is none" ;;
    esac
}

# An option, and its value where that stands in the same word.
look_at_option() {
    option=${1%%=*}
    if ! has "$options" "$option"; then
        blame "\`$1\` is no option"
    elif has " $given " "$option"; then
        blame "$option stands twice"
    fi
    given="$given $option"
    case $1 in
    *=*) look_at_value "$option" "${1#*=}" ;;
    *) wants=$option ;;
    esac
}

# Whether a word is the number of the command: each word that stands where one must, and a number where one may.
is_its_number() {
    [ -z "$number" ] && has "$numbered" "$command" && { has "$needing" "$command" || is_number "$1"; }
}

# A word that is neither an option nor its value: the command, its number, or at last a file. `is_last` says whether it is the last one.
look_at_word() {
    if [ -z "$command" ]; then
        command=$1
        has "$commands$own" "$1" || blame "\`$1\` is no command"
    elif is_its_number "$1"; then
        number=$1
        look_at_value "$command" "$1"
    elif [ "$place" -eq 2 ] && has ' help decisions ' "$command"; then
        :
    elif ! reads "$command"; then
        blame "\`$1\` is one word too many"
    elif [ "$is_last" -eq 0 ]; then
        blame "\`$1\` stands before other words; a FILE is the last one"
    elif [ -d "$1" ] || [ ! -r "$1" ]; then
        blame "\`$1\` is no file that can be read"
    else
        file=$1
    fi
}

# What is missing, and options that don't stand with this command.
look_at_whole() {
    if [ -n "$wants" ]; then look_at_value "$wants" ""; fi
    if [ -z "$command" ]; then blame "no command stands here"; fi
    if has "$needing" "$command" && [ -z "$number" ]; then blame "the number behind $command is missing"; fi
    if [ "$is_over" -eq 1 ] && [ "$command" != keep ]; then blame "--over stands with keep alone"; fi
    for option in $given; do
        has "$pairs" "$command:$option" || blame "$option doesn't stand with $command"
    done
    if has "$given " --claim && has "$given " --show; then blame "--claim and --show don't stand together"; fi
}

# Sets `command`, `wrong` (what is wrong with the words, as far as this script can tell) and `file`, the last word where it is one to be read.
look() {
    command='' number='' given='' wants='' wrong='' file=''
    place=0 is_last=0 is_open=1 is_over=0
    # (commands that bin/tau answers itself come here with words too many)
    own=' help version prove decisions gather atlas '
    for word; do
        place=$((place + 1))
        [ "$place" -lt "$#" ] || is_last=1
        if [ -n "$wants" ]; then
            look_at_value "$wants" "$word"
            wants=
            continue
        fi
        case $is_open$word in
        1--) is_open=0 ;;
        1--over) is_over=1 ;;
        1-?*) look_at_option "$word" ;;
        *) look_at_word "$word" ;;
        esac
    done
    look_at_whole
}

# Whether standard input is a file at its beginning, so that it can be read a second time.
is_file_at_start() {
    [ -f /dev/stdin ] && [ -r /dev/stdin ] || return 1
    case $(cat /proc/self/fdinfo/0 2>/dev/null) in
    pos:[!0-9]0[!0-9]*) ;;
    *) false ;;
    esac
}

# Gives up where `tau.journal` of the present folder has bytes and is no journal, nor what a stop of `keep` leaves: `keep` would write over
# it. Both begin with a gate, which is 0 or 1.
spare_other_file() {
    [ -f tau.journal ] && [ -s tau.journal ] || return 0
    case $(od -An -tu1 -N 1 tau.journal 2>/dev/null | tr -d ' ') in
    "" | 0 | 1) ;;
    *) give_up "$PWD/tau.journal is no journal, and keep would write over it; \`bin/tau keep --over\` does so" ;;
    esac
}
