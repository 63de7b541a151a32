# Puts the texts of `storm` of ranges of seeds together, in the order in which they come, into that of the whole range.
#
#   awk -f share/gather.awk FILE.. (or < INPUT)
#
# A file may have several texts, one after another. A fault of an input is told on standard output, and the status is 3 then.

BEGIN {
    shape = "^\\(storm \\(seeds N\\) \\(runs N\\) \\(complete N\\) \\(open N\\) \\(steps N\\) \\(outcomes N\\)\\)$"
    gsub(/N/, "(0|[1-9][0-9]*)", shape)
    head = "^\\(outcome N \\(runs N\\) \\(seed N\\) \\(faults N\\) \\(steps N\\)\\)$"
    gsub(/N/, "(0|[1-9][0-9]*)", head)
    names = split("seeds runs complete open steps", total_of, " ")
    if (ARGC == 1) read_file("-", "standard input")
    for (at = 1; at < ARGC; at++) read_file((ARGV[at] ~ /^\// ? "" : "./") ARGV[at], ARGV[at])
    write_all()
}

# Tells what is wrong with the line that was read last, and ends.
function blame(what) {
    print file ", line " line ": " what
    exit 3
}

# Reads the texts of a file, whose lines are counted.
function read_file(path, name,    text) {
    file = name
    line = texts = 0
    while ((got = (getline text < path)) > 0) {
        line++
        read_line(text)
    }
    if (got < 0) blame("it can't be read to its end")
    line++
    if (!texts) blame("there is no (storm ..) in it")
    end_text()
    close(path)
}

function read_line(text,    words) {
    if (text ~ shape) {
        if (texts++) end_text()
        begin_text(text)
    } else if (!texts) blame("a text of storm begins with (storm (seeds ..) ..), and this doesn't")
    else if (text ~ head) {
        end_outcome()
        begin_outcome(text)
    } else if (text == "(open)" || text ~ /^\((saved|state) [^ ]+ [0-9]+ .*\)$/ && is_whole(text)) {
        if (!seen) blame("an outcome begins with (outcome ..), and none has begun")
        lines = lines == "" ? text : lines "\n" text
        split(text, words, " ")
        # (what a run has created has a number for a name, and may be missing)
        if (words[2] ~ /^[^0-9]/) starts[words[1]] = starts[words[1]] " " words[2]
    } else blame("this is no line that storm writes")
}

# Whether a line has as many `(` as `)`, but for those in quotes.
function is_whole(text) {
    gsub(/"([^"\\]|\\.)*"/, "", text)
    return gsub(/\(/, "", text) == gsub(/\)/, "", text) && text !~ /"/
}

# The numbers of a line, as `number`, counted from 1.
function numbers(text,    count, words, at) {
    gsub(/[^0-9]+/, " ", text)
    count = split(text, words, " ")
    for (at = 1; at <= count; at++) number[at] = words[at]
}

function begin_text(text,    at) {
    numbers(text)
    for (at = 1; at <= names; at++) {
        name = total_of[at]
        part[name] = number[at]
        total[name] = plus(total[name], number[at])
    }
    wanted = number[names + 1]
    seen = 0
    runs = open_runs = "0"
}

function begin_outcome(text) {
    numbers(text)
    if (number[1] != seen) blame("here comes outcome " seen ", and this is outcome " number[1])
    seen++
    its_runs = number[2]
    its_seed = number[3]
    its_faults = number[4]
    its_steps = number[5]
    lines = starts["(saved"] = starts["(state"] = ""
}

# Puts the outcome to those from before: of ends with the same lines the simpler one stays, and of two that are equally simple the earlier one.
function end_outcome(    at) {
    if (!seen) return
    if (!count) all_starts = starts["(state"]
    if (starts["(saved"] != all_starts || starts["(state"] != all_starts)
        blame("before this line an outcome ends that doesn't tell of the starts" all_starts)
    runs = plus(runs, its_runs)
    if (lines ~ /^\(open\)/) open_runs = plus(open_runs, its_runs)
    if (!(lines in place)) {
        place[lines] = ++count
        lines_of[count] = lines
    }
    at = place[lines]
    if (!(at in runs_of) || its_faults + 0 < faults_of[at] || its_faults + 0 == faults_of[at] && its_steps + 0 < steps_of[at]) {
        seed_of[at] = its_seed
        faults_of[at] = its_faults + 0
        steps_of[at] = its_steps + 0
    }
    runs_of[at] = plus(runs_of[at], its_runs)
}

# A text must have all outcomes that it tells of, with all of their runs.
function end_text() {
    end_outcome()
    if (seen != wanted) blame("here the text ends with " seen " of " wanted " outcomes" (seen ? "" : "; with --claim storm writes none"))
    if (runs != part["runs"] || open_runs != part["open"] || plus(part["complete"], part["open"]) != runs)
        blame("here the text ends, and its outcomes have " runs " runs, " open_runs " of them open; its first line tells of " part["runs"] " and " part["open"])
}

# The sum of two numbers in decimal, of any length.
function plus(one, other,    carry, sum, digits) {
    if (length(one) < 15 && length(other) < 15) return sprintf("%.0f", one + other)
    while (one != "" || other != "" || carry) {
        digits = substr(one, length(one)) + substr(other, length(other)) + carry
        carry = digits > 9
        sum = digits % 10 sum
        one = substr(one, 1, length(one) - 1)
        other = substr(other, 1, length(other) - 1)
    }
    return sum
}

# Whether an outcome comes before another one.
function is_before(one, other) {
    if (faults_of[one] != faults_of[other]) return faults_of[one] < faults_of[other]
    if (steps_of[one] != steps_of[other]) return steps_of[one] < steps_of[other]
    return lines_of[one] "" < lines_of[other] ""
}

# Sorts the outcomes between two places of `order`, by merging.
function sort(first, last,    middle, left, right, at) {
    if (first >= last) return
    middle = int((first + last) / 2)
    sort(first, middle)
    sort(middle + 1, last)
    left = first
    right = middle + 1
    for (at = first; at <= last; at++)
        merged[at] = right > last || left <= middle && !is_before(order[right], order[left]) ? order[left++] : order[right++]
    for (at = first; at <= last; at++) order[at] = merged[at]
}

function write_all(    at, number) {
    printf "(storm"
    for (at = 1; at <= names; at++) printf " (%s %s)", total_of[at], total[total_of[at]]
    print " (outcomes " count + 0 "))"
    for (at = 1; at <= count; at++) order[at] = at
    sort(1, count)
    for (at = 1; at <= count; at++) {
        number = order[at]
        print "(outcome " at - 1 " (runs " runs_of[number] ") (seed " seed_of[number] ") (faults " faults_of[number] ") (steps " steps_of[number] "))"
        if (lines_of[number] != "") print lines_of[number]
    }
}
