# Tells what stands in a place of a program or a step, and what is wanted there: a part of where.awk. What is wanted is read from the
# documents by tables.awk.
#
# Of the place, `path_head` and `path_item` have the word at the head of each list around it, the outermost first, and which item of that
# list leads to the place, 0 being the head; `path` is how many there are. `token` is what stands there: a word, a text in quotes or `(`. Of a
# list `own_head` is the head, and `own_items` how many items stand behind it.

# Finds what the place is for: `wanted` is its slot, `of_sort` and `of_head` are the form that it is an item of.
function find_slot(    at, sort) {
    wanted = sort = "top"
    for (at = 1; at <= path; at++) {
        of_sort = sort
        of_head = path_head[at]
        wanted = item_slot(sort, of_head, path_item[at])
        if (wanted != "NAMES") sort = sort_of(wanted)
        else if (at < path) {
            wanted = "NAME"
            return
        }
    }
}

function item_slot(sort, head, item) {
    if (item == 0) return "HEAD"
    return slot[sort, head, (sort, head) in least_of ? 1 : item]
}

# What is wrong with the shape of the place. `row` is then the form that the documents tell of.
function shape_told(    sort) {
    row = path == 0 ? "" : row_of(of_sort, of_head)
    sort = sort_of(wanted)
    if (sort != "" && token == "(") return list_told(sort)
    if ((sort == "expression" || sort == "value") && token ~ /^"/) return large_told(sort == "expression" ? "text in an expression" : "value", stands())
    if (sort == "expression") return no_expression(token)
    if (sort == "value") return no_value()
    if (sort == "entry") return stands() " can't be a failure, which is a list: " forms_of("entry")
    if (sort == "top") return stands() " stands outside of lists; " forms_here("top")
    if (wanted == "NAMES") return stands() " can't be (SUM ITEM), a list of exactly two names"
    if (wanted ~ /^(NAME|START|BEHAVIOUR|W)$/) return no_name(token)
    return cannot_be(wanted)
}

function cannot_be(what) {
    return stands() " can't be " what (what == "NODE" ? "; " nodes_here() : "")
}

function no_value() {
    row = ""
    return stands() " is no value, which is unit, true or false, an integer, a text in quotes, " forms_of("value")
}

function list_told(sort,    missing) {
    if (own_items < 0) return "this list is empty; " forms_here(sort)
    if (own_head ~ /^["(]/) return "this list begins with no word; " forms_here(sort)
    if (!has_form(sort, own_head)) return "no form begins with `" own_head "` here; " forms_here(sort)
    row = row_of(sort, own_head)
    missing = (sort, own_head) in least_of ? least_of[sort, own_head] - own_items : slots_of[sort, own_head] - own_items
    if (missing > 0) return "`" own_head "` stands with " items(own_items) " behind it; " missing (missing == 1 ? " is missing" : " are missing")
    if (missing < 0 && !((sort, own_head) in least_of))
        return "`" own_head "` stands with " items(own_items) " behind it; " items(slots_of[sort, own_head]) (slots_of[sort, own_head] == 1 ? " is" : " are") " wanted"
    return large_told("value", "this value")
}

function large_told(what, which,    most) {
    row = ""
    most = limit[what]
    sub(/, which.*/, "", most)
    return which " is too large: " most " are allowed" (what == "value" ? " (docs/formats.md, \"Values\")" : "")
}

function items(count) {
    return count == 0 ? "no item" : count == 1 ? "1 item" : count " items"
}

# The forms that may stand here.
function forms_here(sort) {
    row = ""
    return "forms here begin with: " heads(sort)
}

function forms_of(sort,    at, made, head) {
    for (at = 1; at <= head_count[sort]; at++) {
        head = heads_of[sort, at]
        if (has_form(sort, head)) made = made (made == "" ? "" : " or ") form_of[sort, head]
    }
    return made
}

# What stands there.
function stands() {
    if (token == "(") return "a list"
    return token ~ /^"/ ? "a text in quotes" : "`" shortened(token) "`"
}

function shortened(text) {
    return length(text) > 40 ? substr(text, 1, 38) ".." : text
}

function nodes_here() {
    if (!nodes_told) return "a node is a number, and (nodes K) tells which there are"
    return nodes_told == 1 ? "the one node here is 0" : "nodes are 0 to " nodes_told - 1 " here"
}

# Why a word is no expression.
function no_expression(word) {
    row = ""
    if (word ~ /^[-+]?[0-9]+$/) {
        if (word ~ /^(0|-?[1-9][0-9]*)$/) return "`" shortened(word) "` is too large; an integer is " limit["integer"]
        return "`" shortened(word) "` is no integer: it stands without `+` and without zeros before it"
    }
    if (word ~ /^[-+]?[0-9]/) return "`" shortened(word) "` is neither an integer nor a name"
    if (has_form("expression", word)) return "`" word "` stands alone; as a form it is " form_of["expression", word]
    return no_name(word)
}

# Why something isn't a name.
function no_name(word,    most, at) {
    if (word == "(" || word ~ /^"/) return stands() " can't be a name"
    most = limit["name"]
    gsub(/^.* to | bytes$/, "", most)
    if (length(word) > most + 0) return "`" shortened(word) "` is no name: one has " limit["name"] ", and this has " length(word)
    if (word ~ /^(unit|true|false|msg|self)$/) return "`" word "` is no name, since the word means something else"
    if (word !~ /^[a-z]/) return "`" word "` is no name: one begins with a letter from a to z"
    match(word, /[^a-z0-9-]/)
    return "`" word "` is no name: one has letters from a to z, digits and `-`, and no `" substr(word, RSTART, 1) "`"
}

# Of a name that isn't defined.
function unknown_told(    sort) {
    row = ""
    sort = wanted == "BEHAVIOUR" ? "behaviour" : "start"
    if (wanted == "e") return unbound_told(token)
    if (token ~ /^[0-9]/) return "a start is told by its name, and not by a number"
    if ((sort == "start" ? "behaviour" : "start", token) in first_line) return "no " sort " has the name `" token "`, which is that of a " (sort == "start" ? "behaviour" : "start")
    return "no " sort " `" token "` is defined; " (defined[sort] == "" ? "there is none" : sort "s here:" defined[sort])
}

# Of a variable that isn't bound.
function unbound_told(word) {
    if (has_form("expression", word)) return "no variable `" word "` is bound here; the form is " form_of["expression", word]
    if (("start", word) in first_line) return "no variable `" word "` is bound here; the name of the start is (name " word ")"
    if (word ~ /^-?[a-z]*-[0-9]+$/) return "no variable `" word "` is bound here; a difference is " form_of["expression", "-"]
    return "no variable `" word "` is bound here; let and fold bind variables"
}

# What is wrong with the shape of a step, of which `item` has the items from 0 on.
function step_told(    head, count, at, kind) {
    row = ""
    if (at_limit()) return "there are more than " limit["steps of a trace"] " steps"
    if (!is_list_form) return "a step is a list; " forms_here("step")
    head = item[0]
    if (item_count == 0) return "this list is empty; " forms_here("step")
    if (!has_form("step", head)) return "no step begins with " (head == "(" || head ~ /^"/ ? "that" : "`" shortened(head) "`") "; " forms_here("step")
    row = row_of("step", head)
    count = slots_of["step", head]
    if (item_count - 1 != count) return "`" head "` stands with " items(item_count - 1) " behind it; " items(count) (count == 1 ? " is" : " are") " wanted"
    for (at = 1; at <= count; at++) {
        kind = slot["step", head, at]
        token = item[at]
        if (!fits(kind)) return cannot_be(kind)
    }
    return "its value has no right shape, or more than " limit["value"] " (docs/formats.md, \"Values\")"
}

function at_limit(    most) {
    most = limit["steps of a trace"]
    gsub(/,/, "", most)
    return at >= most + 0
}

# Whether `token` can stand for an item of a step, as far as one word tells.
function fits(kind) {
    if (kind == "VALUE") return 1
    if (kind == "true") return token ~ /^(true|false)$/
    if (kind ~ /^(WHO|TO|BEHAVIOUR)$/ && is_name(token)) return 1
    if (token !~ /^(0|[1-9][0-9]*)$/) return 0
    if (kind == "NODE") return token + 0 < nodes_told
    return kind != "CODE" || token >= 1 && token <= 8
}

function is_name(word) {
    return word ~ /^[a-z][a-z0-9-]*$/ && length(word) <= 64 && word !~ /^(unit|true|false|msg|self)$/
}

# What a step names that doesn't exist before it.
function missing_told(    head, at, kind, exist) {
    row = ""
    head = item[0]
    for (at = 1; at <= slots_of["step", head]; at++) {
        kind = slot["step", head, at]
        token = item[at]
        if (kind == "BEHAVIOUR" && !(("behaviour", token) in first_line)) return "no behaviour `" shortened(token) "` is defined"
        if (kind ~ /^(WHO|TO)$/ && is_name(token) && !(("start", token) in first_line)) return "no start `" token "` is defined; starts here:" defined["start"]
        if (kind ~ /^(WHO|TO)$/ && token ~ /^[0-9]/ && token + 0 < starts) return "transactor " token " is a start, which is told by its name"
        if (kind ~ /^(WHO|TO)$/ && token ~ /^[0-9]/ && token + 0 >= starts + news) return "there is no transactor " shortened(token) " before it" up_to(starts + news)
        if (kind == "M" && token + 0 >= messages) return "there is no message " shortened(token) " before it" up_to(messages)
        exist = head == "new" ? starts + news : messages
        if (kind == "N" && token + 0 != exist) return "the new one has the number " exist ", and not " shortened(token)
    }
    return "its value names what doesn't exist before it"
}

function up_to(count) {
    return count == 0 ? "" : count == 1 ? "; the last is 0" : "; the last is " count - 1
}
