# Makes the man page from docs/manual.md: headings, paragraphs, blocks, and tables, which the program tbl lays out.

function escaped(text) {
    gsub(/\\/, "\\e", text)
    gsub(/-/, "\\-", text)
    return text
}

# A text with what stands between backquotes in bold.
function inline(text,    parts, count, at, made) {
    count = split(text, parts, "`")
    for (at = 1; at <= count; at++) made = made (at % 2 ? escaped(parts[at]) : "\\fB" escaped(parts[at]) "\\fR")
    return made
}

function line(text) {
    print (text ~ /^[.']/ ? "\\&" : "") text
}

# Keeps a row of a table.
function row(text,    count, at, cell, cells, parts, part, words) {
    gsub(/\\\|/, "\001", text)
    count = split(substr(text, 2, length(text) - 2), cells, "|")
    if (!rows) columns = count
    rows++
    for (at = 1; at <= columns; at++) {
        cell = cells[at]
        gsub(/^ +| +$/, "", cell)
        gsub(/\001/, "|", cell)
        cell_of[rows, at] = cell
        gsub(/`/, "", cell)
        if (rows == 1 || length(cell) > longest[at]) longest[at] = length(cell)
        if (rows == 1) least[at] = 0
        parts = split(cell, words, /[ |]/)
        for (part = 1; part <= parts; part++) if (length(words[part]) > least[at]) least[at] = length(words[part])
    }
}

# How wide each column is. Where they don't all stand side by side in a page, the shorter ones keep their width, and the others share what is
# left by their lengths; but none is shorter than a word.
function widths(    left, all, at, fair) {
    left = 70 - 3 * (columns - 1)
    all = 0
    is_wrapped = 0
    fair = left / columns
    for (at = 1; at <= columns; at++) {
        width[at] = longest[at] <= fair ? longest[at] : least[at]
        left -= width[at]
        if (longest[at] > fair) all += sqrt(longest[at])
        if (longest[at] > width[at]) is_wrapped = 1
    }
    for (at = 1; at <= columns && left > 0; at++)
        if (longest[at] > fair) width[at] += int(left * sqrt(longest[at]) / all)
}

# A text whose lines may end behind a `|` too.
function breakable(text) {
    gsub(/\|/, "|\\:", text)
    return text
}

# Writes the table whose rows were kept, for the program tbl.
function end_table(    at, number, heads, cells) {
    if (!rows) return
    widths()
    for (at = 1; at <= columns; at++) {
        heads = heads (at == 1 ? "" : " ") "lbw(" width[at] "n)"
        cells = cells (at == 1 ? "" : " ") "lw(" width[at] "n)"
    }
    print ".PP\n.ad l\n.nh\n.TS\ntab(@);\n" heads "\n" cells "."
    for (number = 1; number <= rows; number++) {
        for (at = 1; at <= columns; at++) {
            print (at == 1 ? "T{" : "T}@T{")
            line(breakable(inline(cell_of[number, at])))
        }
        print "T}"
        if (number == 1) print "_"
        else if (is_wrapped && number < rows) print ".sp"
    }
    print ".TE\n.ad b\n.hy"
    rows = 0
}

/^```/ {
    if (!in_block && !is_synopsis) {
        is_synopsis = 1
        print ".SH SYNOPSIS"
    }
    print in_block ? ".EE\n.RE" : ".PP\n.RS 4\n.EX"
    in_block = !in_block
    needs_words = 1
    next
}
in_block { line(escaped($0)); next }
!/^\|/ { end_table() }
/^# / {
    print "'\\\" t"
    print ".\\\" Made by share/make from docs/manual.md."
    print ".TH TAU 1 \"\" Tau \"Manual of Tau\"\n.SH NAME\ntau \\- runs programs of transactors and judges their runs"
    next
}
/^## / { print ".SH " inline($0 ~ /\// ? substr($0, 4) : toupper(substr($0, 4))); next }
/^\|[-|]*$/ { next }
/^\|/ { row($0); needs_paragraph = 0; next }
/^$/ { needs_paragraph = 1; next }
is_synopsis == 1 { print ".SH DESCRIPTION"; is_synopsis = 2; needs_paragraph = 0 }
{
    if (needs_paragraph) print ".PP"
    needs_paragraph = 0
    line(inline($0))
}
END { end_table() }
