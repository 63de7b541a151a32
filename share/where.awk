# Tells where in an input of tau a place is: line, column and text, counted in bytes from 1, and what is wrong there.
#
#   awk -v kind=KIND -v at=AT -v command=COMMAND -v docs=FOLDER [-v what=TEXT] \
#       -f share/scan.awk -f share/tables.awk -f share/shapes.awk -f share/where.awk < INPUT
#
# KIND is the number of an input fault and AT what is told with it (docs/manual.md, "Statuses"), or KIND is `step` and AT a place of the run.
# FOLDER has the documents. Nothing is written where the input has no such place.

BEGIN {
    told[2] = "no list is open that this could close"
    told[5] = "200 lists are open here already"
    told["step"] = "step " at what
    split("behaviour start post at", sorts, " ")
    split("256 1024 4096 4096", limits, " ")
    is_byte = kind == 1 || kind == 2 || kind == 5
    is_node = kind >= 6 && kind <= 8
    is_step = kind == "step" || kind == 12 || kind == 13
    if (is_node || kind == 12 || kind == 13) read_tables()
    if (kind == "step") read_traps()
    if (kind == 9) told[9] = "this is one " sorts[at] " too many; " limits[at] " are allowed"
    if (kind == 10) leave("the input has more than 16,777,216 bytes")
    if (kind == 11 && at == 0) leave("the input has no form at all: " command " reads a run text, and what was to write one has failed, or the input is empty")
    if (kind == 11) leave("the input has no (trace): " command " reads a run text, as `bin/tau run` writes it")
}

# The last words of this script. (`END` is still run)
function leave(text) {
    if (text != "") print text
    is_told = 1
    exit
}

# A line with what is told of a column of it, a part of its text around that, and a mark below the column.
function show(number, column, line, text,    first) {
    print "line " number ", column " column ": " text
    first = column > 90 ? column - 60 : 1
    line = substr(line, first, 120)
    sub(/\r$/, "", line)
    gsub(/\t/, " ", line)
    gsub(/[^ -~]/, "?", line)
    print "    " line
    printf "    %" (column - first + 1) "s\n", "^"
}

# Keeps where the place is that was asked for. What is told of it may stand behind it.
function keep_place(column) {
    is_found = 1
    found_line = NR; found_column = column; found_text = $0
}

# A form begins, in the program or among the steps.
function begins(column, text) {
    if (depth == 0) top_form(column, text)
    else {
        items_of[depth]++
        if (items_of[depth] == 1) head_of[depth] = text
        if (depth == 1) item_of_top(column, text)
    }
    if (text == "(") {
        line_of[depth + 1] = NR
        column_of[depth + 1] = column
        text_of[depth + 1] = $0
        items_of[depth + 1] = 0
        head_of[depth + 1] = ""
    }
    if (is_node && !is_traced && nodes++ == at) found_node(column, text)
}

function top_form(column, text) {
    forms++
    if (!is_traced) return
    if (is_step && steps++ == at) {
        keep_place(column)
        is_in_step = 1
        is_list_form = text == "("
        if (!is_list_form) leave_step()
    }
}

# The items of a form at the top. (of a step that is looked for all are kept)
function item_of_top(column, text) {
    if (is_in_step) item[items_of[1] - 1] = text
    if (is_traced) return
    if (items_of[1] == 1 && kind == 9 && text == sorts[at] && ++count == limits[at] + 1) {
        show(line_of[1], column_of[1], text_of[1], told[9])
        leave("")
    }
    if (items_of[1] != 2) return
    second = text
    if (is_node || kind == 13) defines(head_of[1], column, text)
}

# A form of a program defines a name. One that is left out by a fault of its own is kept, where it stands behind the place that is told.
function defines(head, column, text) {
    if (head != "behaviour" && head != "start") {
        if (is_found && text == token && head !~ /^(post|at|nodes|version)$/) left_out(column, "no form begins with `" head "`")
    } else if (!is_name(text)) {
        if (is_found) left_out(column, no_name_of(text), head)
    } else if ((head, text) in first_line) {
        if (is_found) left_out(column, "a " head " `" text "` stands before it", head)
    } else {
        defined[head] = defined[head] (++defined_count[head] > 12 ? (defined_count[head] == 13 ? " .." : "") : " " text)
        first_line[head, text] = NR; first_column[head, text] = column; first_text[head, text] = $0
        if (head == "start") starts++
    }
}

function no_name_of(text,    kept, told_here) {
    kept = token
    token = text
    told_here = no_name(text)
    token = kept
    return told_here
}

function left_out(column, why, head) {
    causes++
    cause_head[causes] = head
    cause_why[causes] = why
    cause_line[causes] = NR; cause_column[causes] = column; cause_text[causes] = $0
}

# The node that is told begins here. Its list, or the rest of the program, may tell more of it.
function found_node(column, text,    level) {
    keep_place(column)
    token = text
    path = depth
    for (level = 1; level <= depth; level++) {
        path_head[level] = head_of[level]
        path_item[level] = items_of[level] - 1
    }
}

function closes(column) {
    if (is_found && is_node && token == "(" && depth == path + 1 && !is_closed) {
        is_closed = 1
        own_head = head_of[depth]
        own_items = items_of[depth] - 1
    }
    if (depth == 1) top_form_ends()
}

function top_form_ends() {
    if (is_in_step) {
        item_count = items_of[1]
        leave_step()
    }
    if (is_traced) {
        if (kind == 13 && head_of[1] == "new") news++
        if (kind == 13 && head_of[1] ~ /^(send|echo|repeat)$/) messages++
        return
    }
    if (head_of[1] == "post") messages++
    if (items_of[1] == 2 && head_of[1] == "version" && second == "2") is_of_version_two = 1
    if (items_of[1] == 2 && head_of[1] == "nodes" && !nodes_told && second ~ /^[1-9][0-9]?$/ && second <= 64) nodes_told = second + 0
    if (items_of[1] == 1 && head_of[1] == "trace") mark_ends()
}

# The mark between program and steps. Of the program all is known now.
function mark_ends() {
    if (reads_program()) return
    is_traced = 1
    if (is_node) exit
}

function reads_program() {
    return command == "run" || command == "keep"
}

function leave_step() {
    if (kind == 12) tell("step " at " isn't of the right shape: " step_told())
    else if (kind == 13) tell("step " at ": " missing_told())
    else {
        tell(told[kind])
        if (item[0] == "trap" && (item[2] in trap_of)) print "trap " item[2] ": " trap_of[item[2]]
    }
    leave("")
}

function tell(text) {
    show(found_line, found_column, found_text, text)
    if (row != "") print "wanted: " row
}

# Tells of the node, at the end of the program.
function tell_node() {
    if (path == 0 && own_head == "trace" && own_items == 0) {
        tell(reads_program() ? command " reads a program, and here the steps of a run text begin" : without_nodes("before (trace)"))
        return
    }
    find_slot()
    if (kind == 6) tell(shape_told())
    else if (kind == 7) tell(unknown_told())
    else tell_twice()
    if (kind == 7) tell_causes(wanted == "BEHAVIOUR" ? "behaviour" : "start")
}

function tell_twice() {
    if (wanted == "HEAD") {
        row = row_of("top", token)
        tell("(" token " K) stands a second time")
        return
    }
    row = ""
    tell("`" token (of_head == "fold" ? "` stands twice; the two names of a fold differ" : "` is defined a second time"))
    if ((of_head, token) in first_line)
        show(first_line[of_head, token], first_column[of_head, token], first_text[of_head, token], "here it is defined first")
}

# Whether nothing behind the present line matters for what is told of a node.
function is_enough() {
    return is_found && kind != 7 && nodes_told && (token != "(" || is_closed) && (path == 0 || path_head[1] != "at")
}

# What was left out by a fault of its own, and may be what is missing.
function tell_causes(sort,    at_cause, shown) {
    if (wanted == "e") return
    for (at_cause = 1; at_cause <= causes && shown < 3; at_cause++) {
        if (cause_head[at_cause] != "" && cause_head[at_cause] != sort) continue
        shown++
        show(cause_line[at_cause], cause_column[at_cause], cause_text[at_cause], "this is left out, and may be the cause: " cause_why[at_cause])
    }
}

function without_nodes(where) {
    return "there is no (nodes K) with K from 1 to 64 " where
}

# A byte that may not stand where it stands.
function byte_told(byte) {
    if (byte ~ /[^\001-\177]/) return "a byte outside ASCII may not stand here"
    if (byte ~ /[^ -~]/) return "this control byte may not stand here"
    return "`" byte "` may not stand here"
}

# Where a text in quotes has a byte that may not stand there, it often isn't closed: its line goes up to that byte.
function tell_text(column,    line) {
    line = $0
    scan(substr(line, 1, column - 1))
    if (column > length(line)) show(NR, column, line, "the line ends here, and a text in quotes is open; in a text \\n stands for the end of a line")
    else if (substr(line, column - 1, 1) == "\\" && substr(line, column, 1) ~ /[ -~]/) show(NR, column, line, "behind a \\ stands \", \\ or n")
    else show(NR, column, line, byte_told(substr(line, column, 1)) " in quotes")
    if (is_quoted) show(quote_line, quote_column, quote_text, "the text in quotes begins here")
    leave("")
}

# (most steps are a line each, and nothing of such a line but its beginning matters where a step is looked for)
is_step && is_traced && depth == 0 && !is_quoted && steps < at && /^\([^();"]*\)$/ {
    steps++
    if (kind == 13 && /^\(new /) news++
    if (kind == 13 && /^\((send|echo|repeat) /) messages++
    next
}
is_byte && at <= bytes + length($0) {
    show(NR, at - bytes + 1, $0, kind == 1 ? byte_told(substr($0, at - bytes + 1, 1)) : told[kind])
    leave("")
}
kind == 4 && at <= bytes + length($0) { tell_text(at - bytes + 1) }
is_node && is_enough() { exit }
!is_byte { scan($0) }
{ bytes += length($0) + 1 }

END {
    if (is_told) exit
    if (kind == 3) {
        if (bytes == at) print "line " NR + 1 ", column 1: here the input ends, and a list or a text in quotes is open"
        else print "line " NR ", column " length($0) + 1 ": here the input ends, and a list or a text in quotes is open"
        if (is_quoted) show(quote_line, quote_column, quote_text, "the text in quotes begins here")
        else if (depth > 0) show(line_of[depth], column_of[depth], text_of[depth], "the innermost list that is open begins here")
    }
    if (is_node && is_found) tell_node()
    else if (kind == 6 && nodes == at) print forms == 0 ? "the input has no form at all; " without_nodes("in it") : without_nodes("in the program")
    else if (kind == "step" && !is_found && is_traced) print "the run has " steps + 0 " steps" (steps > 1 ? ", at the places 0 to " steps - 1 : "")
}
