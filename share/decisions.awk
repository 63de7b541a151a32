# Lists the decisions of a run text: each Hold, Drop, Fall and Trap, a line each, with its place, the behaviour of its transactor and, of a
# trap, what docs/language.md says of its number.
#
#   awk -v docs=FOLDER -f share/scan.awk -f share/tables.awk -f share/decisions.awk < INPUT
#
# FOLDER has the documents. The status is 3 where the input has no (trace). The steps aren't tested: `tau check` and `tau report` do that.

BEGIN { read_traps() }

function begins(column, text) {
    if (depth == 0) {
        count = 0
        if (text != "(") form_ends()
    } else if (depth == 1) item[++count] = text
}

function closes(column) {
    if (depth == 1) form_ends()
}

# The items of a form at the top are known.
function form_ends() {
    if (is_traced) step()
    else if (count == 1 && item[1] == "trace") is_traced = 1
    else if (count > 2 && item[1] == "start" && !(item[2] in behaviour_of)) behaviour_of[item[2]] = item[3]
}

function step() {
    if (count == 1 && item[1] == "report") {
        is_through = 1
        exit
    }
    if (count > 3 && item[1] == "new") behaviour_of[item[3]] = item[4]
    if (item[1] ~ /^(hold|drop|fall|trap)$/) print place + 0 ": (" form() "), behaviour " behaviour_of[item[2]] cause()
    place++
}

function form(    at, made) {
    made = item[1]
    for (at = 2; at <= count; at++) made = made " " item[at]
    return made
}

function cause() {
    return item[1] == "trap" && (item[3] in trap_of) ? ": " trap_of[item[3]] : ""
}

# (most steps are a line each)
is_traced && depth == 0 && !is_quoted && /^\([^();"]*\)$/ {
    count = split(substr($0, 2, length($0) - 2), item, " ")
    step()
    next
}
{ scan($0) }

END { if (!is_traced) exit 3 }
