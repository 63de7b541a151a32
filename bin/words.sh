# shellcheck shell=sh disable=SC2034,SC2154
# Made by share/make from the table "Words" of docs/manual.md.
commands=' run check audit report print gen drill migrate keep resume why cut draw storm '
numbered=' gen drill why draw '
needing=' gen drill why '
reading=' run check audit report print migrate keep why cut draw storm '
options=' --workers --jobs --seed --steps --from --to --seeds --fails --losses --repeats --every --claim --show '
pairs=' run:--workers run:--jobs run:--seed run:--steps keep:--workers keep:--jobs keep:--seed keep:--steps resume:--workers resume:--jobs resume:--seed resume:--steps draw:--from draw:--to storm:--claim storm:--show storm:--workers storm:--jobs storm:--seed storm:--seeds storm:--fails storm:--losses storm:--repeats storm:--every storm:--steps '

# The range of an option, or of the number of a command.
range_of() {
    case $1 in
    --workers) echo '1 to 32' ;;
    --jobs) echo '1 to 16' ;;
    --seed) echo '0 to 18,446,744,073,709,551,615' ;;
    --steps) echo '0 to 200,000' ;;
    --from) echo '0 to 4,294,967,295' ;;
    --to) echo '0 to 4,294,967,295' ;;
    --seeds) echo '1 to 1,000,000,000' ;;
    --fails) echo '0 to 16' ;;
    --losses) echo '0 to 16' ;;
    --repeats) echo '0 to 16' ;;
    --every) echo '1 to 200,000' ;;
    --claim) echo 'the name of a behaviour' ;;
    --show) echo '0 to 4,294,967,295' ;;
    *) echo '0 to 18,446,744,073,709,551,615' ;;
    esac
}
