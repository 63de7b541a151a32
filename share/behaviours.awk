# Lists the names of a program's behaviours, with commas between them.
#
#   awk -f share/scan.awk -f share/behaviours.awk < INPUT

function begins(column, text) {
    if (depth == 0) count = 0
    else if (depth == 1 && ++count == 1) head = text
    else if (depth == 1 && count == 2 && head == "behaviour") names = names (names == "" ? "" : ", ") text
}

function closes(column) {
}

{ scan($0) }

END { print names }
