# shellcheck shell=sh disable=SC2034,SC2154
# What `bin/tau decisions` does: a part of bin/tau. Nothing is built for it, and the program isn't called.

# Lists the decisions of a run text, which standard input has, or the file that is named.
decisions() {
    if [ "$#" -eq 2 ]; then
        if [ -d "$2" ] || [ ! -r "$2" ]; then
            say "\`$2\` is no file that can be read"
            exit 2
        fi
        exec <"$2"
    fi
    [ ! -t 0 ] || say "reading from the terminal; Ctrl-D ends it"
    status=0
    LC_ALL=C tr '\000' '\001' | LC_ALL=C awk -v docs="$root/docs" -f "$root/share/scan.awk" -f "$root/share/tables.awk" \
        -f "$root/share/decisions.awk" 2>/dev/null || status=$?
    case $status in
    0) ;;
    3) give_up "the input has no (trace): decisions reads a run text, as \`bin/tau run\` writes it" ;;
    *) give_up "writing failed" ;;
    esac
}
