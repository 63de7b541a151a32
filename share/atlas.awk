# Makes the page of `bin/tau atlas` from the text of a storm.
#
#   awk -f share/atlas.awk < STORM
#
# The environment has `file`, the program's; `seed`, the first one; `words`, the other options of storm but --seeds; `claim`, a name or
# nothing, and if that is broken another `status` than 0 and as `broken` the outcome that breaks it; `css`, the file of the page's style; and
# `room`, a folder with the files `script` (the entries of the program's own script), `shown` (outcomes, each with the number that `storm` of
# its seed alone gives it), and of each of these I.run, a run text, and I.svg, its picture.

BEGIN { broken = ENVIRON["broken"] }

# A text as it stands in a page.
function text(word) {
    gsub(/&/, "\\&amp;", word)
    gsub(/</, "\\&lt;", word)
    gsub(/>/, "\\&gt;", word)
    gsub(/"/, "\\&quot;", word)
    gsub(/'/, "\\&#39;", word)
    return word
}

# A word of a command of the shell.
function quoted(word) {
    if (word ~ /^[A-Za-z0-9_.\/+,:@%-]+$/ && word !~ /^-/) return word
    gsub(/'/, "'\\''", word)
    return "'" (word ~ /^-/ ? "./" : "") word "'"
}

# A number with commas.
function grouped(number,    made) {
    while (length(number) > 3) {
        made = "," substr(number, length(number) - 2) made
        number = substr(number, 1, length(number) - 3)
    }
    return number made
}

# So many of something.
function many(count, one, more) {
    return count == 1 ? "one " one : grouped(count) " " more
}

# A value, cut where it is long.
function value(word) {
    return text(length(word) > 200 ? substr(word, 1, 200) ".." : word)
}

# The value of an option of storm.
function option(name, otherwise,    list, count, at) {
    count = split(ENVIRON["words"], list, " ")
    for (at = 1; at < count; at += 2) if (list[at] == "--" name) return list[at + 1]
    return otherwise
}

# What stands behind a word of a line of the text.
function told(line, name) {
    return match(line, "\\(" name " [0-9]+\\)") ? substr(line, RSTART + length(name) + 2, RLENGTH - length(name) - 3) : ""
}

# What stands in a form behind so many words.
function behind(form, count) {
    while (count--) sub(/^[^ ]+ /, "", form)
    return substr(form, 1, length(form) - 1)
}

FNR == 1 { total = $0; next }
/^\(outcome / {
    at = $2
    runs[at] = told($0, "runs")
    seed_of[at] = told($0, "seed")
    faults[at] = told($0, "faults")
    steps[at] = told($0, "steps")
    count = at + 1
    next
}
/^\(open\)$/ { is_open[at] = 1; next }
{
    kind = substr($1, 2)
    interval_of[kind, at, $2] = $3
    value_of[kind, at, $2] = behind($0, 3)
    if (!($2 in known)) {
        known[$2]
        who[++people] = $2
    }
}

# The state of a transactor at an end, and whether it may be kept.
function state(at, name,    saved, kept, look, more) {
    saved = ("saved", at, name) in value_of
    kept = ("state", at, name) in value_of
    if (!saved) return ""
    look = interval_of["saved", at, name] == 1 && name ~ /^[^0-9]/ ? "first" : "kept"
    if (!kept || interval_of["state", at, name] != interval_of["saved", at, name]) {
        look = "lost"
        more = kept ? "<small>goes back to " value(value_of["state", at, name]) "</small>" : "<small>is lost</small>"
    }
    return "<li class=" look "><b>" text(name) " <i>" interval_of["saved", at, name] "</i></b>" value(value_of["saved", at, name]) more "</li>"
}

function states(at,    number) {
    printf "<ul class=states>"
    if (at in is_open) printf "<li class=open>not complete at the step limit</li>"
    for (number = 1; number <= people; number++) printf "%s", state(at, who[number])
    print "</ul>"
}

function simplest(at, between) {
    return (faults[at] == 0 ? "no fault" : many(faults[at], "fault", "faults")) "," between many(steps[at], "step", "steps")
}

# The faults that are placed, in words.
function placed(    made, list, number) {
    if (option("fails", 1)) list[++number] = many(option("fails", 1), "failure of a node", "failures of nodes")
    if (option("losses", 0)) list[++number] = many(option("losses", 0), "loss of a message", "losses of messages")
    if (option("repeats", 0)) list[++number] = many(option("repeats", 0), "repeat of a message", "repeats of messages")
    if (!number) return ""
    made = list[1]
    if (number == 3) made = made ", " list[2]
    if (number > 1) made = made " and " list[number]
    return made
}

function question(    asked, most) {
    asked = placed()
    most = told(total, "seeds")
    print "<p>Which states are saved in the end, and which of them may be kept if all else is lost? Asked of the runs of " \
        many(most, "seed", "seeds") (most == 1 ? ", " ENVIRON["seed"] : " from " ENVIRON["seed"] " on") \
        (asked == "" ? ", with no faults placed" : ", each with every placement of at most " asked) \
        (option("every", 1) == 1 ? "" : ", at places that are multiples of " grouped(option("every", 1))) \
        (option("jobs", 1) == 1 ? "" : ", with " option("jobs", 1) " turns open at a time") \
        (own ? ", besides the faults of the program's own script" : "") ". A run has at most " many(option("steps", 1000), "step", "steps") ".</p>"
    print "<p>" many(told(total, "runs"), "run", "runs") " with " many(told(total, "steps"), "step", "steps") " in all have " \
        "<strong>" many(told(total, "outcomes"), "outcome", "outcomes") "</strong>." \
        (told(total, "open") == 0 ? "" : " " many(told(total, "open"), "run isn't", "runs aren't") " complete at the step limit.") "</p>"
    if (ENVIRON["claim"] != "") print "<p>The claim <code>" text(ENVIRON["claim"]) "</code> " \
        (ENVIRON["status"] == 0 ? "<strong>holds</strong> at each end." : "is <strong>broken</strong>, first by <a href=\"#o" broken "\">outcome " broken "</a>.") "</p>"
    print "<p><span class=\"key kept\">saved, and may be kept</span> <span class=\"key first\">still the opening state</span> " \
        "<span class=\"key lost\">saved, and can't be kept</span></p>"
    print "<p class=dim>Behind a name stands its interval, which grows by one with each checkpoint.</p>"
}

function breaks(at) {
    return (at "") == (ENVIRON["broken"] "")
}

function table(    at, share) {
    print "<table><tr><th>#<th>runs<th>simplest run<th>what is saved"
    for (at = 0; at < count; at++) {
        share = 100 * runs[at] / told(total, "runs")
        printf "<tr><td>%s<td>%s<span class=bar style=\"width:%.1f%%\"></span><td>%s%s<td>", \
            (at in shown) ? "<a href=\"#o" at "\">" at "</a>" : at, grouped(runs[at]), share, simplest(at, "<br>"), \
            breaks(at) ? "<br><strong>breaks the claim</strong>" : ""
        states(at)
    }
    print "</table>"
}

# What a fault of a run's script does, in words.
function fault(entry,    words, name, key) {
    gsub(/[()]/, "", entry)
    split(entry, words, " ")
    key = (words[3] == "fail" ? "node " : "message ") words[4]
    name = key (words[3] == "fail" ? " fails" : words[3] == "lose" ? " is lost" : " is repeated")
    return "At place " grouped(words[2]) " " name (key in about ? " (" about[key] ")" : "")
}

# Reads of a run text which faults it has, who lives on which node, and what its messages are.
function read_run(path,    line, words, posts, key, is_post) {
    split("", entry)
    split("", about)
    entries = 0
    while ((getline line < path) > 0) {
        split(line, words, " ")
        if (words[1] == "(at") entry[++entries] = line
        else if (words[1] == "(start") {
            key = "node " words[4]
            if (key in about) about[key] = about[key] ", " text(words[2])
            else about[key] = text(words[2])
        } else if (words[1] == "(post" || words[1] == "(send") {
            is_post = words[1] == "(post"
            key = "message " (is_post ? posts++ : words[3])
            about[key] = (is_post ? "to " text(words[2]) : "from " text(words[2]) " to " text(words[4])) ", " value(behind(line, is_post ? 2 : 4))
        } else if (words[1] == "(report)") break
    }
    close(path)
}

function fault_list(    at, next_own, is_own) {
    print entries ? "<ul>" : "<p>No fault.</p>"
    next_own = 1
    for (at = 1; at <= entries; at++) {
        is_own = next_own <= own && entry[at] == own_entry[next_own]
        next_own += is_own
        print "<li>" fault(entry[at]) (is_own ? ", by the program's own script" : "") "</li>"
    }
    if (entries) print "</ul>"
}

# The style sheet and the symbols, which all pictures have, stand in the page once.
function symbols(path,    line, is_shared) {
    print "<svg class=\"tau\" width=\"0\" height=\"0\" style=\"position:absolute\" aria-hidden=\"true\">"
    while ((getline line < path) > 0) {
        if (line ~ /^<style/) is_shared = 1
        if (is_shared) print line
        if (line == "</defs>") break
    }
    print "</svg>"
    close(path)
}

function picture(path,    line, is_shared) {
    print "<div class=picture>"
    while ((getline line < path) > 0) {
        if (line ~ /^<style/) is_shared = 1
        if (!is_shared) print line
        if (line == "</defs>") is_shared = 0
    }
    print "</div>"
    close(path)
}

function outcome(at,    path) {
    path = ENVIRON["room"] "/" at
    print "<details" (breaks(at) ? " open" : "") "><summary>Outcome " at ": " many(runs[at], "run", "runs") "; the simplest has " simplest(at, " ") "</summary><div id=o" at ">"
    states(at)
    read_run(path ".run")
    fault_list()
    print "<p><code>" text("bin/tau storm " (ENVIRON["words"] == "" ? "" : ENVIRON["words"] " ") "--seed " seed_of[at] " --seeds 1 --show " shown[at] " " quoted(ENVIRON["file"]) " | bin/tau draw") "</code></p>"
    picture(path ".svg")
    print "</div></details>"
}

function read_files(    line, words, path) {
    path = ENVIRON["room"] "/script"
    while ((getline line < path) > 0) own_entry[++own] = line
    path = ENVIRON["room"] "/shown"
    while ((getline line < path) > 0) {
        split(line, words, " ")
        if (!pictures++) first = words[1]
        shown[words[1]] = words[2]
    }
}

END {
    read_files()
    name = ENVIRON["file"]
    sub(/.*\//, "", name)
    print "<!doctype html>\n<html lang=en>\n<meta charset=utf-8>\n<meta name=viewport content=\"width=device-width\">"
    print "<meta http-equiv=Content-Security-Policy content=\"default-src 'none'; style-src 'unsafe-inline'\">"
    print "<title>How " text(name) " ends</title>\n<style>"
    while ((getline line < ENVIRON["css"]) > 0) print line
    print "</style>\n<body>"
    symbols(ENVIRON["room"] "/" first ".svg")
    print "<h1>How " text(name) " ends</h1>"
    question()
    table()
    print "<h2>One run of each</h2>"
    if (pictures < count) print "<p>Of " grouped(count) " outcomes the first " pictures " are drawn" (broken != "" && !((broken - 1) in shown) && broken > 0 ? ", the one that breaks the claim among them" : "") ".</p>"
    for (at = 0; at < count; at++) if (at in shown) outcome(at)
}
