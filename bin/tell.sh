# shellcheck shell=sh disable=SC2034,SC2154
# What `bin/tau` tells behind the program's own line where the status isn't 0: a part of bin/tau. All of it goes to standard error.

# The first line of the program's output. It is asked for once more where the program is built: the first time its output was the caller's alone.
first_output() {
    if [ -n "$room" ]; then
        head -n 1 "$room/output"
    else
        "$program" "$@" <"$input" 2>/dev/null | head -n 1
    fi
}

# Line, column and text of a place in the input: KIND is `step` or the number of a fault, AT the place that was told.
where() {
    LC_ALL=C tr '\000' '\001' <"$input" | LC_ALL=C awk -v kind="$1" -v at="$2" -v command="$command" -v what="${3-}" -v docs="$root/docs" \
        -f "$root/share/scan.awk" -f "$root/share/tables.awk" -f "$root/share/shapes.awk" -f "$root/share/where.awk"
}

# The cells of a fault's row in the manual, with ` | ` between them: WHICH is `an input` or `a journal`.
fault_row() {
    awk -v which="The faults of $1," -v number="$2" '
        /^The faults of / { inside = substr($0, 1, length(which)) == which }
        inside && split($0, cells, / *\| */) > 2 && cells[2] == number {
            gsub(/`/, "")
            split($0, cells, / *\| */)
            print cells[3] "|" cells[4] "|" cells[5] "|" cells[6]
            exit
        }' "$root/docs/manual.md"
}

tell_words() {
    [ -z "$wrong" ] || say "$wrong"
    if has "$commands" "$command"; then
        say "\`bin/tau help $command\` tells which words stand with it, and their ranges"
    else
        say "\`bin/tau help\` tells what each command does"
    fi
}

# Where the input is no file: what the number of its fault means.
tell_number() {
    row=$(fault_row "an input" "$1")
    if [ "$1 $2" = "11 0" ]; then
        say "the input has no form at all: $command reads a run text, and what was to write one has failed, or the input is empty"
    else
        [ -z "$row" ] || say "fault $1, ${row%%|*}, at $2 ($(echo "$row" | cut -d '|' -f 2))"
        [ "$1 $2" != "6 0" ] || say "or the input is empty"
        say "with the input in a file (< FILE) the line and column are told too"
    fi
}

tell_fault() {
    fault=${line#tau: input fault }
    if [ -n "$input" ]; then
        where "${fault% at *}" "${fault#* at }"
    else
        tell_number "${fault% at *}" "${fault#* at }"
    fi
}

# What a step is that is asked for in vain, and which could be asked for.
tell_vain() {
    what=", which is no hold, drop or fall"
    [ "$command" != draw ] || what="$what, and no checkpoint that can't be kept"
    [ -z "$input" ] || where step "${line#tau: no such decision at }" "$what"
    say "\`bin/tau decisions\` lists holds, drops, falls and traps with their places"
}

tell_step() {
    if [ -z "$input" ]; then
        say "with the input in a file (< FILE) the line and column are told too"
        return
    fi
    answer=$(first_output "$@")
    case $status:$answer in
    "4:bad step "*) where step "${answer#bad step }" ", the first that isn't legal" ;;
    "8:broken "*)
        answer=${answer#broken }
        where step "${answer%% *}" ", the checkpoint that isn't safe"
        where step "${answer##* }" ", the fall of what it depends on"
        ;;
    esac
}

# What the manual says of a fault of the journal.
tell_journal() {
    fault=${line#tau: journal fault }
    row=$(fault_row "a journal" "${fault%% *}")
    [ -z "$row" ] || say "fault ${fault%% *}: $(echo "$row" | cut -d '|' -f 2); $(echo "$row" | cut -d '|' -f 4)"
}

tell_disk() {
    say "tau.journal can't be opened, written or synced here, or another process has it open; \`bin/tau help $command\` tells more"
}

# Which behaviours there are, where a claim names none; or where it is told how many outcomes there are.
tell_absent() {
    case $line in
    *outcome) say "\`bin/tau storm\` without --show tells which outcomes there are; the first has the number 0" ;;
    *)
        if [ -n "$input" ]; then
            names=$(LC_ALL=C tr '\000' '\001' <"$input" | LC_ALL=C awk -f "$root/share/scan.awk" -f "$root/share/behaviours.awk")
            say "behaviours here: ${names:-none}"
        else
            say "with the input in a file (< FILE) the behaviours that there are are told too"
        fi
        ;;
    esac
}

tell() {
    case $status in
    2) tell_words ;;
    3) tell_fault ;;
    4 | 8) tell_step "$@" ;;
    9) tell_journal ;;
    10) tell_disk ;;
    11) tell_vain ;;
    12) say "the run text of a simplest run that breaks the claim was written; \`| bin/tau draw\` shows it" ;;
    13) tell_absent ;;
    esac
}
