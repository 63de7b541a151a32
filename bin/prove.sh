# shellcheck shell=sh disable=SC2034,SC2154
# What `bin/tau prove` does: the part of bin/tau that builds the program. It uses the functions there.
#
# Crates that don't stand on one another are proved side by side. `rt lib` keeps other calls of `rt` out of all crates below its own until
# it ends, so each proof has a lane, a copy of the sources in a folder of its own. The libraries below a crate stand there by links. Its own
# folder out/ is moved there for the proof and back at its end, also where that is stopped.

# The gigabytes that a prover may take.
prover_memory=4

# Says how far the build is: on a terminal each line is written over the last one.
show_progress() {
    if [ -t 2 ]; then printf '\r\033[Kbin/tau: %s' "$*" >&2; else say "$*"; fi
}

minutes() {
    echo $((($(date +%s) - started) / 60))
}

# The gigabytes of memory that are free; 0 where the system doesn't tell.
free_memory() {
    memory=$(awk '/^MemAvailable:/ { print int($2 / 1000000) }' /proc/meminfo 2>/dev/null) || :
    echo "${memory:-0}"
}

# Waits while another call builds: one has the lock of this file, where the system has the command flock. `rt` has locks besides.
take_turn() {
    exec 9<"$root/bin/tau"
    command -v flock >/dev/null || return 0
    if ! flock -n 9; then
        say "another build is going on; this one waits"
        flock 9
    fi
    take_back
}

# Takes back what is built from the lanes of a call that was killed.
take_back() {
    for out in "$root"/out/lanes.*/*/crates/*/out; do
        home=$root/${out#"$root"/out/lanes.*/*/}
        [ ! -e "$out" ] || [ -e "$home" ] || mv "$out" "$home" || :
    done
    rm -rf "$root"/out/lanes.*
}

# The libraries of the program, each with the crates that it names, those first from which the way up to the program is longest, so that
# each stands behind those below it.
plan() {
    crates | awk '
        NR == FNR { order[NR] = $1; count = NR; next }
        { sub(/#.*/, "") }
        split($0, half, ":") > 1 { split(half[1], words, " "); below[words[1]] = half[2] }
        END {
            for (at = count; at > 0; at--) {
                name = order[at]
                parts = split(below[name], list, " ")
                line[name] = name
                for (part = 1; part <= parts; part++) {
                    lower = list[part]
                    if (!(lower in below)) continue
                    line[name] = line[name] " " lower
                    if (way[lower] <= way[name]) way[lower] = way[name] + 1
                }
            }
            for (at = 1; at < count; at++) print way[order[at]], at, line[order[at]]
        }' - "$root/crates.txt" | sort -k1,1nr -k2,2n | cut -d ' ' -f 3-
}

# Whether a library stands there, as old as what it is made of or younger: its sources, and the libraries below it, which are there too.
# `rt run` compares the texts at last, and proves anew what this took for proved.
is_there() {
    crate=$1 stamp=$root/crates/$1/out/rlib/stamp
    [ -e "$stamp" ] || return 1
    shift
    for lower; do
        [ -e "$room/proved.$lower" ] || return 1
        shift
        set -- "$@" "$root/crates/$lower/out/rlib/stamp"
    done
    for part in crates.txt "crates/$crate/src" "crates/$crate/specs" "crates/$crate/proofs"; do
        [ ! -e "$root/$part" ] || set -- "$@" "$root/$part"
    done
    [ -z "$(find "$@" -newer "$stamp" | head -n 1)" ]
}

# Marks the libraries that are there.
look_round() {
    while read -r name below; do
        # shellcheck disable=SC2086
        if is_there "$name" $below; then
            : >"$room/begun.$name"
            : >"$room/proved.$name"
            number=$((number + 1))
        fi
    done <"$room/plan"
}

# Makes the lanes: the sources of the libraries, with their lines of crates.txt.
make_lanes() {
    mkdir -p "$root/out"
    lanes=$(mktemp -d "$root/out/lanes.XXXXXX")
    mkdir -p "$lanes/1/crates"
    cp "$root/HANDLES" "$lanes/1"
    awk 'NR == FNR { ours[$1]; next } split($0, half, /[ :]/) && half[1] in ours' "$room/plan" "$root/crates.txt" >"$lanes/1/crates.txt"
    while read -r name _; do
        set --
        for part in src specs proofs; do
            [ ! -e "$root/crates/$name/$part" ] || set -- "$@" "$root/crates/$name/$part"
        done
        mkdir "$lanes/1/crates/$name"
        cp -R "$@" "$lanes/1/crates/$name"
    done <"$room/plan"
    for lane in $idle; do
        [ "$lane" -eq 1 ] || cp -R "$lanes/1" "$lanes/$lane"
    done
}

# Puts the libraries that are proved into a lane, by links where the system makes them.
fill_lane() {
    for mark in "$room"/proved.*; do
        from=$root/crates/${mark#"$room"/proved.}/out/rlib to=$1/crates/${mark#"$room"/proved.}/out
        if [ ! -e "$mark" ] || [ -e "$to/rlib" ]; then continue; fi
        mkdir -p "$to"
        cp -Rl "$from" "$to" 2>/dev/null || { rm -rf "$to/rlib" && cp -R "$from" "$to"; } || return 1
    done
}

# Runs a command in a folder, and waits for it. The signal TERM, whose trap is that of prove_library, ends both.
run_in() {
    (cd "$1" && shift && exec "$@") </dev/null 8<&- &
    prover=$! ended=0
    [ -z "$is_stopped" ] || kill "$prover" || :
    wait "$prover" || ended=$?
    # (the signal has ended that, and not yet the command)
    [ -z "$is_stopped" ] || wait "$prover" || ended=$?
    prover=
    return "$ended"
}

# Proves a library in a lane, by so many jobs, with other calls of `rt` kept out of its folder. Where it is stopped, it keeps what it has.
prove_in_lane() {
    home=$root/crates/$1/out place=$3/crates/$1/out status=0
    exec 7<"$root/crates/$1"
    ! command -v flock >/dev/null || run_in . flock 7 || return 1
    fill_lane "$3" || return 1
    [ ! -e "$home" ] || mv "$home" "$place" || return 1
    run_in "$3/crates/$1" rt lib --jobs "$2" 7<&- || status=$?
    rm -rf "$home"
    [ ! -e "$place" ] || mv "$place" "$home" || return 1
    [ "$status" -ne 0 ] || touch -c -r "$room/begun" "$home/rlib/stamp"
    return "$status"
}

# Does so beside other proofs, and tells the end.
prove_library() {
    prover='' is_stopped='' end=0
    trap 'is_stopped=1; [ -z "$prover" ] || kill "$prover" 2>/dev/null || :' TERM
    trap '' HUP INT
    prove_in_lane "$1" "$2" "$lanes/$3" >"$room/log.$1" 2>&1 || end=$?
    echo "$1 $2 $3 $end" >&8
}

# Begins the proof of a library in a lane that is idle.
begin() {
    lane=${idle%% *} idle=${idle#* }
    : >"$room/begun.$1"
    number=$((number + 1)) running=$((running + 1)) free=$((free - $2)) at_work="$at_work $1"
    others=
    [ "$running" -eq 1 ] || others=" and $((running - 1)) more"
    show_progress "$number of $((total)), $1$others ($(minutes) minutes so far)"
    prove_library "$1" "$2" "$lane" &
    echo $! >"$room/prover.$1"
}

# The libraries that haven't begun, and whose lower ones are proved.
ready() {
    while read -r name below; do
        [ ! -e "$room/begun.$name" ] || continue
        is_ready=1
        for lower in $below; do [ -e "$room/proved.$lower" ] || is_ready=; done
        [ -z "$is_ready" ] || echo "$name"
    done <"$room/plan"
}

# Begins as many proofs as there are libraries ready, processors, lanes and memory. They share the free processors, each with four at most.
begin_ready() {
    # shellcheck disable=SC2046
    set -- $(ready)
    places=$((most - running))
    [ "$places" -le "$free" ] || places=$free
    [ "$places" -le $# ] || places=$#
    while [ "$places" -gt 0 ] && { [ "$running" -eq 0 ] || [ "$(free_memory)" -ge "$prover_memory" ]; }; do
        jobs=$(((free + places - 1) / places))
        [ "$jobs" -le 4 ] || jobs=4
        begin "$1" "$jobs"
        shift
        places=$((places - 1))
    done
}

# Waits for the end of a proof.
await() {
    read -r name jobs lane status <&8
    running=$((running - 1)) free=$((free + jobs)) idle="$lane $idle"
    left=
    for other in $at_work; do [ "$other" = "$name" ] || left="$left $other"; done
    at_work=$left
    [ "$status" -eq 0 ] || fail "$name"
    : >"$room/proved.$name"
}

# Tells the lines of a crate that didn't pass. The other proofs are stopped.
fail() {
    [ ! -t 2 ] || echo >&2
    cat "$room/log.$1" >&2
    give_up "$1 didn't pass, as told above, so the program isn't built"
}

# Stops the proofs that go on, and waits until they have put back what they keep.
stop_provers() {
    trap '' HUP INT TERM
    for name in $at_work; do
        kill "$(cat "$room/prover.$name")" 2>/dev/null || :
    done
    wait
    rm -rf "$room" ${lanes:+"$lanes"}
}

# Proves the libraries, as many side by side as there are processors and memory for.
prove_libraries() {
    processors=$(nproc 2>/dev/null || getconf _NPROCESSORS_ONLN || echo 1)
    most=$(($(free_memory) / prover_memory)) running=0 free=$processors idle=
    [ "$most" -le "$processors" ] || most=$processors
    [ "$most" -ge 1 ] || most=1
    while [ "$running" -lt "$most" ]; do running=$((running + 1)) idle="$idle$running "; done
    running=0
    plan >"$room/plan"
    look_round
    [ "$number" -lt $((total - 1)) ] || return 0
    make_lanes
    mkfifo "$room/ends"
    exec 8<>"$room/ends"
    begin_ready
    while [ "$running" -gt 0 ]; do
        await
        begin_ready
    done
}

# Proves the crates, lowest first, and builds the program and runs it once. What is proved already is only looked at.
prove() {
    need_rt
    take_turn
    make_room
    lanes='' at_work='' number=0
    trap stop_provers EXIT
    trap 'echo >&2; say "stopped; \`bin/tau prove\` goes on from here"; exit 130' INT
    started=$(date +%s)
    total=$(crates | wc -l)
    say "proving the program, crate by crate; what is proved is kept, so this may be stopped and started again"
    touch "$room/begun"
    prove_libraries
    show_progress "$((total)) of $((total)), tau ($(minutes) minutes so far)"
    (cd "$root/crates/tau" && rt run -- gen 1) </dev/null >"$room/log.tau" 2>&1 || fail tau
    # (a source that was changed meanwhile is newer than this)
    touch -c -r "$room/begun" "$program"
    show_progress "the program is proved and built ($(minutes) minutes)"
    [ ! -t 2 ] || echo >&2
}
