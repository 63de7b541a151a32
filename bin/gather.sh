# shellcheck shell=sh disable=SC2154
# What `bin/tau gather` does: a part of bin/tau. Nothing is built for it, and the program isn't called.

# Puts the texts of storms of ranges of seeds together: those of the files that are named, or of standard input where none is.
gather() {
    for file; do
        if [ -d "$file" ] || [ ! -r "$file" ]; then
            say "\`$file\` is no file that can be read"
            exit 2
        fi
    done
    [ "$#" -gt 0 ] || [ ! -t 0 ] || say "reading from the terminal; Ctrl-D ends it"
    make_room
    status=0
    LC_ALL=C awk -f "$root/share/gather.awk" -- "$@" >"$room/text" 2>"$room/lines" || status=$?
    case $status in
    0) cat "$room/text" 2>/dev/null || give_up "writing failed" ;;
    3) give_up "$(cat "$room/text")" ;;
    *) give_up "gathering failed: $(cat "$room/lines")" ;;
    esac
}
