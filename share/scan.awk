# Goes through the tokens of forms: a part of where.awk and decisions.awk. These define what is done at each token:
#
#   begins(column, token)   a form begins; `token` is its word, or `(` of a list, or the text in quotes as far as it stands in the line
#   closes(column)          the innermost open list ends; `depth` counts it still
#
# `depth` is how many lists are open before the token. A text in quotes that the line leaves open has `is_quoted`, and goes on
# with the next line, which is a fault of its own.

function scan(line,    column, length_of_line, byte, start) {
    length_of_line = length(line)
    for (column = 1; column <= length_of_line && !is_told; column++) {
        byte = substr(line, column, 1)
        if (is_quoted) {
            if (byte == "\\") column++
            else if (byte == "\"") is_quoted = 0
        } else if (byte == ";") return
        else if (byte == "(") {
            begins(column, "(")
            depth++
        } else if (byte == ")") {
            closes(column)
            if (depth > 0) depth--
        } else if (byte == "\"") {
            begins(column, quoted(substr(line, column)))
            is_quoted = 1
            quote_line = NR; quote_column = column; quote_text = $0
        } else if (byte != " " && byte != "\t" && byte != "\r") {
            start = column
            while (column < length_of_line && substr(line, column + 1, 1) !~ /[ \t\r;()"]/) column++
            begins(start, substr(line, start, column - start + 1))
        }
    }
}

# The text in quotes at the beginning of a line's rest.
function quoted(rest) {
    return match(rest, /^"([^"\\]|\\.)*"/) ? substr(rest, 1, RLENGTH) : "\""
}
