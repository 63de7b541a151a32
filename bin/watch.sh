# shellcheck shell=sh disable=SC2034,SC2154
# What a call shows on a terminal while the program works: a part of bin/tau. It is one line, which a watcher beside the program writes anew
# each second, and which is cleaned away before anything else is written. The system must have /proc, as Linux does.

# Sets `now`, in hundredths of a second since the system was started.
look_at_clock() {
    read -r now _ </proc/uptime && now=${now%.*}${now#*.}
} 2>/dev/null

# The processor time of this call and of all that it has begun, but for the watcher, in hundredths of a second. There is none where another
# job has the terminal.
processor_time() {
    awk -v call="$$" -v watcher="$1" '
        function first_line(file,   line) {
            line = ""
            getline line <file
            close(file)
            return line
        }
        BEGIN {
            processes[count = 1] = call
            for (at = 1; at <= count; at++) {
                line = first_line("/proc/" processes[at] "/stat")
                sub(/.*\) /, "", line)
                split(line, fields, " ")
                if (at == 1 && fields[3] != fields[6]) exit
                time += fields[12] + fields[13] + fields[14] + fields[15]
                begun = split(first_line("/proc/" processes[at] "/task/" processes[at] "/children"), list, " ")
                for (child = 1; child <= begun; child++) if (list[child] != watcher) processes[++count] = list[child]
            }
            print time + 0
        }' 2>/dev/null
}

clean_line() {
    printf '\r\033[K' >&2
}

# Writes the line each second, as long as the call is there, and cleans it away at the signal USR1. Where the call waits for its input, which
# takes no time of a processor, its time hasn't begun.
watch() {
    is_shown=
    trap '' INT
    trap '[ -z "$is_shown" ] || clean_line; exit 0' USR1
    read -r self _ </proc/self/stat
    while { sleep 1 2>/dev/null & wait "$!"; }; do
        kill -0 "$$" 2>/dev/null && look_at_clock || exit 0
        # (a process that ends meanwhile can't be read)
        used=$(processor_time "$self") || used=
        [ -n "$used" ] || continue
        if [ -n "$waits" ] && [ "$used" -lt 20 ]; then
            begun=$now
            continue
        fi
        waits='' is_shown=1
        printf '\r\033[Kbin/tau: %s, %d s, %d s of processor time\r' "$1" $(((now - begun) / 100)) $((used / 100)) >&2
    done
}

# Whether the program itself shows how far it is: a storm, where standard error is a terminal that no other job has, and the input is a file
# that can be read once more.
shows_itself() {
    [ "$command" = storm ] && [ -z "$wrong" ] && [ -n "$input" ] && [ -t 2 ] && [ -n "$(processor_time 0)" ]
}

# Begins to show how long a command takes, where standard error is a terminal and nothing is typed there for the command.
begin_watch() {
    if [ ! -t 2 ] || ! look_at_clock || { reads "$1" && [ -t 0 ]; }; then return; fi
    waits='' begun=$now
    if reads "$1" && [ -z "$room" ] && [ ! -f /dev/stdin ]; then waits=1; fi
    # (the process ends by the signal, as it does without the watcher)
    [ -n "$room" ] || trap 'end_watch; trap - INT; kill -INT "$$"' INT
    watch "$1" </dev/null >/dev/null 3>&- &
    watcher=$!
}

# Ends that, and waits until the line is cleaned away.
end_watch() {
    [ -n "$watcher" ] || return 0
    {
        kill -USR1 "$watcher" || :
        while read -r stat <"/proc/$watcher/stat"; do
            case ${stat##*) } in Z*) break ;; esac
        done
    } 2>/dev/null
    watcher=
}

# Hands on what the program writes to a terminal, and ends the line before.
hand_on() {
    if IFS= read -r first; then
        end_watch
        printf '%s\n' "$first" && cat
    elif [ -n "$first" ]; then
        end_watch
        printf '%s' "$first"
    fi
}

# Runs the program on the ends of this call, and sets `line` and `status`. What it writes to the terminal goes through a pipe.
hear_on_terminal() {
    line=$({ { code=0 && "$program" "$@" 2>&5 3>&- 5>&- || code=$? && echo "$code" >&5 2>/dev/null; } 3>&- | hand_on >&3 5>&-; } 5>&1) || :
    status=${line##*"
"}
    line=${line%"$status"}
    line=${line%"
"}
}
