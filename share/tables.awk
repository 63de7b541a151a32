# Reads what forms there are from the tables of docs/language.md, docs/formats.md and docs/limits.md: a part of where.awk and
# decisions.awk. So what is told of a form is what stands there.
#
# A form has a sort: `top` of a program, `entry` behind the place of `at`, `expression`, `value` or `step`. By sort and head are kept:
#
#   form_of      the form as it stands in the table
#   meaning_of   what the table says of it
#   slots_of     how many items stand behind the head, and `slot`, by number too, what each is
#   least_of     where any number of items may stand, the least
#   in_two       whether it is a form in version 2 alone

# Each form of the tables.
function read_tables() {
    read_table("language.md", "Expressions", "expression", 2)
    read_table("formats.md", "Programs", "top", 2)
    read_table("formats.md", "Values", "value", 2)
    read_table("formats.md", "Steps", "step", 3)
    read_limits()
}

# The rows of the tables below a heading, whose forms stand in this cell, counted from 2.
function read_table(page, heading, sort, cell,    line, cells, inside) {
    while ((getline line < (docs "/" page)) > 0) {
        if (line ~ /^## /) inside = line == "## " heading
        else if (inside && line ~ /^\|/ && split(line, cells, / *\| */) > cell && cells[cell] ~ /`\(/)
            read_row(sort, cells[cell], plain(cells[cell + 1]), cells[cell - 1] cells[cell + 1] ~ /version 2/)
    }
    close(docs "/" page)
}

# The forms of a row: they stand between backquotes, and behind one may stand how many items it has.
function read_row(sort, text, meaning, is_of_two,    parts, count, at) {
    count = split(text, parts, "`")
    for (at = 2; at <= count; at += 2)
        if (parts[at] ~ /^\(/) add_form(sort, parts[at], parts[at + 1], meaning, is_of_two)
}

function add_form(sort, form, after, meaning, is_of_two,    inner, nested, words, count, at, head) {
    inner = substr(form, 2, length(form) - 2)
    nested = ""
    if (match(inner, /\([^()]*\)/)) {
        nested = substr(inner, RSTART, RLENGTH)
        inner = substr(inner, 1, RSTART - 1) (nested ~ /^\([a-z]/ ? "ENTRY" : "NAMES") substr(inner, RSTART + RLENGTH)
        if (nested ~ /^\([a-z]/) add_form("entry", nested, "", meaning, is_of_two)
    }
    count = split(inner, words, " ")
    head = words[1]
    if ((sort, head) in form_of) return
    if (sort == "step") meaning = substr(after, 3)
    heads_of[sort, ++head_count[sort]] = head
    form_of[sort, head] = form
    meaning_of[sort, head] = meaning
    slots_of[sort, head] = count - 1
    in_two[sort, head] = is_of_two
    if (after ~ /any number of items/) least_of[sort, head] = 0
    if (after ~ /at least one item/) least_of[sort, head] = 1
    for (at = 2; at <= count; at++) slot[sort, head, at - 1] = words[at]
}

# The limits, by what they limit.
function read_limits(    line, cells) {
    while ((getline line < (docs "/limits.md")) > 0)
        if (line ~ /^\|/ && split(line, cells, / *\| */) > 3) limit[cells[2]] = cells[3]
    close(docs "/limits.md")
}

# The causes of traps, by their numbers.
function read_traps(    line, cells, inside) {
    while ((getline line < (docs "/language.md")) > 0) {
        if (line ~ /^## /) inside = line == "## Traps"
        else if (inside && line ~ /^\|/ && split(line, cells, / *\| */) > 3) trap_of[cells[2]] = plain(cells[3])
    }
    close(docs "/language.md")
}

# What stands in a cell, without backquotes.
function plain(text) {
    gsub(/`/, "", text)
    return text
}

# Whether a form of this sort begins with this word, in the program's version.
function has_form(sort, head) {
    return (sort, head) in form_of && (is_of_version_two || !in_two[sort, head])
}

# The words with which forms of a sort begin.
function heads(sort,    at, made) {
    for (at = 1; at <= head_count[sort]; at++)
        if (has_form(sort, heads_of[sort, at])) made = made " " heads_of[sort, at]
    return substr(made, 2)
}

# What a form is, as the table says.
function row_of(sort, head) {
    return form_of[sort, head] (meaning_of[sort, head] == "" ? "" : ": " meaning_of[sort, head])
}

# The sort of the form that stands in a slot.
function sort_of(slot) {
    if (slot == "e" || slot == "EXPR") return "expression"
    if (slot == "v" || slot == "VALUE") return "value"
    if (slot == "ENTRY") return "entry"
    return slot == "top" ? "top" : ""
}
