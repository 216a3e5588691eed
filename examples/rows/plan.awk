# Makes the calls of the tables: the input of each, and what has to come of it. `dir` is where they are written.
# The form of a table goes by the ending of its name; its first lines say it.

FNR == 1 { ended(); table = FILENAME; sub(/.*\//, "", table); form = table; sub(/.*\./, "", form); calls = ""; front = "" }
/^[ \t]/ { sub(/^[ \t]+/, ""); row = row $0; next }
{ ended(); row = $0; place = table ":" FNR }
END { ended(); print rows }

function ended() {
    if (row != "" && row !~ /^#/) taken(row)
    row = ""
}

function taken(row) {
    if (row ~ /^>/) { headed(row); return }
    if (row ~ /^\+/) { front = text_of(substr(row, 3)); return }
    rows++
    if (form == "calls") call_of(row)
    else if (form == "texts") text_row(row)
    else if (form == "marks") marks_of(row)
    else if (form == "values") values_of(row)
    else if (form == "models") model_of(row)
    else { print "no form " form; exit 1 }
}

# A heading has the calls of the rows below, and after a colon how a refusal begins.
function headed(row,   at) {
    slow = row ~ /^>>/
    sub(/^>+ */, "", row)
    at = index(row, ":")
    begin = at ? substr(row, at + 2) : ""
    calls = at ? substr(row, 1, at - 1) : row
}

# What stands before the first bar of `left`, which then begins after it.
function field(   at, first) {
    at = index(left, "|")
    first = substr(left, 1, at - 1)
    left = substr(left, at + 1)
    return first
}

# The text that a table writes so.
function text_of(written) {
    gsub(/\//, "\n", written)
    gsub(/\\r/, "\r", written)
    gsub(/\\t/, "\t", written)
    gsub(/\\1/, sprintf("%c", 1), written)
    gsub(/\\d/, sprintf("%c", 127), written)
    return unfolded(written)
}

# Each {N:TEXT} written out.
function unfolded(text,   made, from, to, inside, colon) {
    made = ""
    while ((from = index(text, "{")) > 0) {
        to = index(text, "}")
        inside = substr(text, from + 1, to - from - 1)
        colon = index(inside, ":")
        made = made substr(text, 1, from - 1) times(substr(inside, colon + 1), 1, substr(inside, 1, colon - 1) + 0)
        text = substr(text, to + 1)
    }
    return made text
}

# The text once for each number from the first to the last one, which stands for # in it.
function times(text, first, last,   half) {
    if (last < first) return ""
    if (first == last) return numbered(text, first)
    half = int((last - first + 1) / 2)
    if (index(text, "#") == 0) {
        if ((last - first + 1) % 2) return times(text, 1, 2 * half) text
        half = times(text, 1, half)
        return half half
    }
    return times(text, first, first + half - 1) times(text, first + half, last)
}

# gsub would take mawk minutes here.
function numbered(text, number,   made, at) {
    made = ""
    while ((at = index(text, "#")) > 0) {
        made = made substr(text, 1, at - 1) number
        text = substr(text, at + 1)
    }
    return made text
}

# WORDS|STATUS|ANSWER|INPUT, without the words where a heading has them.
function call_of(row,   words, status, answer) {
    left = row
    words = calls == "" ? field() : calls
    status = field()
    answer = text_of(field())
    call(words, front text_of(left), slow, "is", status, answer)
}

# ok|TEXT or REFUSAL|TEXT, or cuts|TEXT, of which each front is refused at its next line
function text_row(row,   head, text, k, line) {
    left = row
    head = field()
    text = text_of(left)
    if (head != "cuts") { text_of_calls(head, text); return }
    line = 1
    for (k = 0; k < length(text); k++) {
        text_of_calls(line, substr(text, 1, k))
        if (substr(text, k + 1, 1) == "\n") line++
    }
}

function text_of_calls(head, text,   parts, n, k) {
    n = split(calls, parts, ", ")
    for (k = 1; k <= n; k++) {
        if (head == "ok") call(parts[k], front text, 0, "begins otherwise", "", begin)
        else call(parts[k], front text, 0, "is", 2, begin " " head "\n")
    }
}

# A series with these signs: they begin at 0.
function series_of_signs(signs,   cells, at, k, sign) {
    at = 0
    cells = at
    for (k = 1; k <= length(signs); k++) {
        sign = substr(signs, k, 1)
        if (sign == "<") at++
        if (sign == ">") at--
        if (sign != ".") cells = cells " " at
    }
    return cells
}

# PATTERN|SERIES OR SIGNS|RANGES
function marks_of(row,   pattern, cells) {
    left = row
    pattern = field()
    cells = field()
    if (cells ~ /[<=>.]/) cells = series_of_signs(cells)
    call("mark", "catalogue " pattern "\n%%\nseries " cells "\n", 0, "is", 0, marked(cells, left))
}

# What `mark` says of a series with these ranges.
function marked(cells, ranges,   n, parts, count, k, c, ends, answer, word, first, last) {
    n = split(cells, parts, " ")
    count = ranges == "none" ? 0 : split(ranges, parts, " ")
    answer = "occurrences " count "\n"
    for (k = 1; k <= count; k++) {
        split(parts[k], ends, "-")
        first[k] = ends[1] + 0
        last[k] = ends[2] + 0
        answer = answer "range " first[k] " " last[k] "\n"
    }
    answer = answer "mark"
    for (c = 1; c <= n; c++) {
        word = ""
        for (k = 1; k <= count; k++) if (first[k] <= c && c <= last[k]) word = word (word == "" ? "" : "+") k
        answer = answer " " (word == "" ? 0 : word)
    }
    return answer "\n"
}

# PATTERN|SERIES|VALUES, one for each pair of the heading; or TERM|SERIES|VALUE
function values_of(row,   head, cells, terms, names, n, k, value, says, readings, pairs) {
    left = row
    head = field()
    cells = field()
    n = split(left, value, " ")
    terms = names = says = ""
    split(calls, pairs, ", ")
    for (k = 1; k <= n; k++) {
        terms = terms "term t" k " = " (calls == "" ? head : pairs[k] " " head) "\n"
        says = says "value t" k " " value[k] "\n"
        names = names " " value[k]
    }
    k = split(cells, value, " ")
    call("check", "cells " k "\ndomain -1000000..1000000\n" terms "%%\nseries " cells "\n", 0, "is", 0, "meets\n" says)
    readings = cells
    gsub(/ /, "\n", readings)
    says = (k == 1 ? "" : "...\n") k names "\nend " k "\n"
    call("watch", "cells 1\n" terms "%%\n" readings "\n", 0, "is", 0, says)
}

# A model, or a line about the model before it.
function model_of(row,   what) {
    if (row ~ /^(told|false) /) {
        what = substr(row, 1, index(row, " ") - 1)
        sub(/^[a-z]+ /, "", row)
        if (what == "told") told(row)
        else print "false|" place "|" row > (dir "/certificates")
        return
    }
    left = row
    series = field()
    meeting = field()
    most = field()
    least = field()
    first = field()
    model = text_of(left)
    searches()
}

# The model's searches, under several budgets; of the last one the certificates are verified.
function searches(   budgets, counts, n, k, m) {
    n = split("1 2 5 20 100000", budgets, " ")
    for (k = 1; k <= n; k++) {
        call("maximise --budget " budgets[k], model, 0, "best", "", series "|" budgets[k] "|" most)
        call("minimise --budget " budgets[k], model, 0, "best", "", series "|" budgets[k] "|" least)
        split("1 2 3 1000", counts, " ")
        for (m = 1; m <= 4; m++) {
            call("generate " counts[m] " --budget " budgets[k], model, 0, "first", "",
                series "|" budgets[k] "|" meeting "|" first)
        }
    }
    print "model|" place "|" (id - 5) "|" (id - 4) "|" id "|" meeting > (dir "/certificates")
}

# MEETS|VALUES|SERIES: what `check` says; and each term alone, on this series alone, has its value as the best one.
function told(row,   meets, values, cells, n, k, lines, says, value) {
    left = row
    meets = field()
    values = field()
    cells = left
    n = split(values, value, " ")
    terms_of(model)
    says = ""
    for (k = 1; k <= n; k++) says = says "value " name[k] " " value[k] "\n"
    call("check", model "%%\nseries " cells "\n", 0, "is", meets == "meets" ? 0 : 1, meets "\n" (meets == "meets" ? "" : "...") says)
    for (k = 1; k <= n; k++) {
        lines = alone(cells) terms "objective " name[k] "\n"
        call("maximise", lines, 0, "is", 0, "maximise\nbest " value[k] "\nseries " cells "\nworse ...\nend 1 0\n")
        call("minimise", lines, 0, "is", 0, "minimise\nbest " value[k] "\nseries " cells "\nworse ...\nend 1 0\n")
    }
}

# The lines of a model's terms, and their names.
function terms_of(model,   lines, n, k, count, words) {
    n = split(model, lines, "\n")
    terms = ""
    count = 0
    for (k = 1; k <= n; k++) {
        if (lines[k] ~ /^term /) {
            terms = terms lines[k] "\n"
            split(lines[k], words, " ")
            name[++count] = words[2]
        }
    }
}

# The lines that leave each cell its one value.
function alone(cells,   value, n, k, lines) {
    n = split(cells, value, " ")
    lines = "cells " n "\n"
    for (k = 1; k <= n; k++) lines = lines "cell " k " " value[k] "\n"
    return lines
}
