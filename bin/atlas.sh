# shellcheck shell=sh disable=SC2154,SC2034
# What `bin/tau atlas` does: a part of bin/tau. It calls the built program, `storm` first, and makes a page of what that writes.

# How many outcomes have their picture in the page.
pictures=20

# Sets `file`, `words` (the options of storm but --claim, --seed, --seeds and --workers), and these four. The FILE may be the first word, or the last one.
read_words() {
    case ${1--} in
    -*) ;;
    *)
        first=$1
        shift
        set -- "$@" "$first"
        ;;
    esac
    look storm "$@"
    ! has "$given " --show || blame "--show doesn't stand with atlas"
    [ -n "$file" ] || blame "no FILE stands here"
    if [ -n "$wrong" ]; then
        say "$wrong"
        say "\`bin/tau help atlas\` tells which words stand with it, and \`bin/tau help storm\` their ranges"
        exit 2
    fi
    claim=$(value_of --claim "" "$@") seed=$(value_of --seed 0 "$@") seeds=$(value_of --seeds 100 "$@")
    workers=$(value_of --workers 4 "$@")
    words=
    for word in fails:1 losses:0 repeats:0 every:1 steps:1000 jobs:1; do
        value=$(value_of "--${word%:*}" "${word#*:}" "$@")
        [ "$value" = "${word#*:}" ] || words="$words --${word%:*} $value"
    done
}

# Runs the program on the one that is drawn, as it was read at first. (on a terminal a storm would show how far it is)
ask() {
    "$program" "$@" <"$room/program" 2>"$room/lines" || {
        end_watch
        cat "$room/lines" >&2
        return 1
    }
}

# Writes the run text of an outcome, which its seed alone has too, and draws it. `shown` gets its number there.
show_outcome() {
    from=$(sed -n "s/^(outcome $1 .*(seed \([0-9]*\)) .*/\1/p" "$room/storm")
    # shellcheck disable=SC2086
    ask storm $words --seed "$from" --seeds 1 >"$room/one" || return
    number=$(LC_ALL=C awk -v wanted="$1" '
        FNR == 1 { file++; next }
        /^\(outcome / { at = $2; if (file == 2) lines_of[at] = ""; next }
        file == 1 && at == wanted { lines = lines $0 "\n" }
        file == 2 { lines_of[at] = lines_of[at] $0 "\n" }
        END { for (at in lines_of) if (lines_of[at] == lines) print at }' "$room/storm" "$room/one")
    # shellcheck disable=SC2086
    ask storm $words --seed "$from" --seeds 1 --show "$number" >"$room/$1.run" || return
    "$program" draw <"$room/$1.run" >"$room/$1.svg" || return
    echo "$1 $number" >>"$room/shown"
}

# Finds the outcome of the run text that breaks the claim.
find_broken() {
    {
        ! "$program" check <"$room/broken" | grep -q open || echo '(open)'
        "$program" report <"$room/broken" | sed -n '/^(saved /p'
        "$program" cut <"$room/broken" | sed -n '/^(state /p'
    } >"$room/lines"
    LC_ALL=C awk '
        FILENAME == ARGV[1] { wanted = wanted $0 "\n"; next }
        function look() { if (lines == wanted) print at }
        /^\(outcome / { look(); at = $2; lines = ""; next }
        { lines = lines $0 "\n" }
        END { look() }' "$room/lines" "$room/storm"
}

# Hands on what a call of `storm` has told, and ends with its status where there is nothing to go on with.
hand_lines() {
    if [ -s "$room/lines" ]; then
        end_watch
        cat "$room/lines" >&2 || :
        [ "$1" -ne 0 ] || begin_watch atlas
    fi
    [ "$1" -eq 0 ] || exit "$1"
}

# Writes a page of how the program of a file ends.
atlas() {
    read_words "$@"
    [ -x "$program" ] || give_up "atlas needs the built program; \`bin/tau prove\` builds it"
    make_room
    cat -- "$file" >"$room/program" || give_up "$file can't be read"
    begin_watch atlas
    status=0 broken=
    # shellcheck disable=SC2086
    [ -z "$claim" ] || "$root/bin/tau" storm $words --workers "$workers" --seed "$seed" --seeds "$seeds" --claim "$claim" "$room/program" >"$room/broken" 2>"$room/lines" || status=$?
    case $status in
    0) ;;
    12)
        echo 'tau: the claim is broken' >"$room/lines"
        hand_lines 0
        ;;
    *) hand_lines "$status" ;;
    esac
    made=0
    # shellcheck disable=SC2086
    "$root/bin/tau" storm $words --workers "$workers" --seed "$seed" --seeds "$seeds" "$room/program" >"$room/storm" 2>"$room/lines" || made=$?
    hand_lines "$made"
    [ "$status" -eq 0 ] || broken=$(find_broken)
    ask print | sed -n '/^(at /p' >"$room/script"
    # shellcheck disable=SC2013
    for outcome in $(sed -n 's/^(outcome \([0-9]*\) .*/\1/p' "$room/storm"); do
        if [ "$outcome" -lt "$pictures" ] || [ "$outcome" = "$broken" ]; then
            show_outcome "$outcome" || give_up "outcome $outcome can't be drawn"
        fi
    done
    words=${words# } css=$root/share/atlas.css
    # (awk reads the variables of its command with escapes, and those of the environment as they are)
    export room file words seed claim status broken css
    LC_ALL=C awk -f "$root/share/atlas.awk" <"$room/storm" >"$room/page" || give_up "making the page failed"
    end_watch
    cat "$room/page" 2>/dev/null || give_up "writing failed"
    exit "$status"
}
