# Says of a refused text which line is wrong, why, and which form is right; `timeseries` runs it on what it read.
#   awk -v answer="refused model line 5 unknownname" -f hints.awk INPUT

function tell(text) { print "timeseries: " text }

# Printable, and not too long for a line of the screen.
function shown(text) {
    gsub(/\t/, " ", text)
    gsub(/[^ -~]/, "?", text)
    return length(text) > 90 ? substr(text, 1, 86) " .." : text
}

# How many letters have to be put in, left out, changed, or swapped with the next, to make one word of the other.
function distance(one, other,    i, j, cost, row, best) {
    for (i = 0; i <= length(one); i++) row[i, 0] = i
    for (j = 0; j <= length(other); j++) row[0, j] = j
    for (i = 1; i <= length(one); i++)
        for (j = 1; j <= length(other); j++) {
            cost = substr(one, i, 1) != substr(other, j, 1)
            best = row[i - 1, j - 1] + cost
            if (row[i - 1, j] + 1 < best) best = row[i - 1, j] + 1
            if (row[i, j - 1] + 1 < best) best = row[i, j - 1] + 1
            if (i > 1 && j > 1 && substr(one, i, 1) == substr(other, j - 1, 1) \
                && substr(one, i - 1, 1) == substr(other, j, 1) && row[i - 2, j - 2] + 1 < best)
                best = row[i - 2, j - 2] + 1
            row[i, j] = best
        }
    return row[length(one), length(other)]
}

# The nearest of the names, as a question; nothing where none is near.
function meant(word, names,    name, count, i, least, found, away) {
    if (word in planners) return "; did you mean " planners[word] "?"
    if (length(word) > 40) return ""
    least = length(word) < 4 ? 2 : 1 + int(length(word) / 3)
    count = split(names, name, " ")
    for (i = 1; i <= count; i++) {
        away = distance(tolower(word), name[i])
        if (away < least) { least = away; found = name[i] }
    }
    return found == "" ? "" : "; did you mean " found "?"
}

function is_name(word) { return length(word) <= 32 && word ~ /^[a-z][a-z0-9_]*$/ }
function is_number(word) { return word ~ /^(0|-?[1-9][0-9]*)$/ }
function is_within(word, limit) { return is_number(word) && word + 0 <= limit && word + 0 >= -limit }
function is_comparison(word) { return word ~ /^(=|!=|<=|>=|<|>)$/ }
function is_listed(word, names) { return index(" " names " ", " " word " ") > 0 }

function why_no_name(word) {
    return "\"" shown(word) "\" is no name: a name is small letters, digits and _, a letter first, at most 32 in all"
}

function why_no_number(word,    part) {
    if (word ~ /^#/) return "a comment has a line of its own"
    if (word ~ /,$/ || split(word, part, /,/) > 2) return "put blanks between numbers, not commas"
    if (word ~ /^[-+]?[0-9]+[.,][0-9]*$/) return "\"" word "\" is no whole number"
    if (word ~ /^[0-9]+-[0-9]+$/ || word ~ /^-?[0-9]+(\.\.\.+|:)-?[0-9]+$/)
        return "\"" word "\" is no range: put two points between its ends, such as 0..9"
    if (word ~ /\.\.$/ || word ~ /^\.\./) return "put no blanks around the two points of a range, such as 0..9"
    if (word ~ /^[-+]?0[0-9]/ || word ~ /^\+[0-9]/ || word == "-0")
        return "\"" word "\": a number has no + and no leading 0"
    if (word ~ /^[-+]?(inf|infinity)$/) return "write -inf or +inf, and only as a bound"
    return "\"" shown(word) "\" is no number"
}

# The first of the words that is neither a number nor, where ranges may stand, a range.
function first_bad_number(from, ranges,    i, part) {
    for (i = from; i <= count; i++) {
        if (is_number(word[i])) continue
        if (ranges && split(word[i], part, /\.\./) == 2 && is_number(part[1]) && is_number(part[2])) continue
        return word[i]
    }
    return ""
}

# Why the words from the pattern on don't fit; nothing where they may.
function why_tail(    pattern) {
    pattern = word[4] == "count" ? 5 : 6
    if (count < pattern) return ""
    if (word[pattern] == "in" && count > pattern) return "a pattern comes before in"
    if (count > pattern && word[pattern + 1] != "in")
        return (pattern == 5 ? "count takes a pattern alone" : "after the pattern comes nothing") \
            ", or in and a range of cells"
    if (count == pattern + 1) return "after in comes a range of cells, such as 1..4"
    return count > pattern + 2 ? "after in comes one range of cells" : ""
}

function why_shape(    i, glued) {
    for (i = 2; i <= count; i++)
        if (word[i] ~ /^#/) return "a comment has a line of its own"
    if (word[1] == "term") {
        if (count > 1 && word[2] ~ /=/) return "put blanks around the ="
        if (count > 1 && !is_name(word[2])) return why_no_name(word[2])
        if (count > 2 && word[3] != "=") return "after the name comes an = with blanks around it"
        if (why_tail() != "") return why_tail()
        if (count == 5) return "after the = come an aggregator, a feature and a pattern, or count and a pattern"
    }
    if (word[1] == "require") {
        if (count > 1 && word[2] ~ /[=<>!]/) {
            glued = word[2]
            gsub(/[^=<>!]/, "", glued)
            return "put blanks around the " glued
        }
        if (count > 1 && !is_name(word[2])) return why_no_name(word[2])
        if (count > 2 && word[3] in signs) return "\"" word[3] "\" is no comparison; did you mean " signs[word[3]] "?"
        if (count == 3 && word[3] ~ /^[=<>!]/) return "put blanks around the comparison"
        if (count > 2 && !is_comparison(word[3])) return "\"" shown(word[3]) "\" is none of = != <= >= < >"
        if (count > 4) return "after the comparison comes one number"
    }
    if (word[1] == "objective" && count == 2) return why_no_name(word[2])
    return count == 1 ? "something is missing after the first word" : "a word is missing, or there is one too many"
}

function why_unknown_line(    short) {
    if (word[1] == "%%") return "a line %% is for check and verify alone, and comes once"
    if (word[1] == "series") return "a series comes after a line %%, and is for check and verify alone"
    if (is_listed(word[1], "maximise minimise generate best infeasible budget drop split worse"))
        return "an answer comes after a line %%, and is for verify alone"
    if (is_listed(word[1], aggregators " count") && count > 1) {
        short = word[1] " " word[2] (is_listed(word[1], aggregators) && count > 2 ? " " word[3] : "")
        return "this takes two lines: \"term a = " shown(short) "\" and \"require a >= 3\", say"
    }
    if (word[1] ~ /^(\/\/|--|;|%)/) return "a comment begins with #"
    return "no line begins with \"" shown(word[1]) "\"" meant(word[1], "cells domain cell term require objective")
}

function why_unknown_name(    feature, pattern) {
    if (word[4] == "count") return "there is no pattern \"" shown(word[5]) "\"" meant(word[5], patterns)
    if (!is_listed(word[4], aggregators))
        return "there is no aggregator \"" shown(word[4]) "\": it is sum, max or min" meant(word[4], aggregators)
    if (!is_listed(word[5], features))
        return "there is no feature \"" shown(word[5]) "\": it is one, width, surf, max, min or range" \
            meant(word[5], features)
    return "there is no pattern \"" shown(word[6]) "\"" meant(word[6], patterns)
}

function why_limit() {
    if (word[1] == "term") return "a model has at most 32 terms"
    if (word[1] == "require" && !is_within(word[4], 1000000000000))
        return "a bound is -inf, +inf or a number from -1000000000000 to 1000000000000"
    if (word[1] == "require") return "a model has at most 64 requirements"
    return "values are from -1000000 to 1000000, in a search at most 65536 in all cells together"
}

function why_empty(    i, part) {
    for (i = 2; i <= count; i++)
        if (split(word[i], part, /\.\./) == 2 && part[1] + 0 > part[2] + 0)
            return "\"" word[i] "\": the smaller number comes first: " part[2] ".." part[1]
    return "the smaller number of a range comes first"
}

function why(kind,    bad) {
    if (kind == "nottext") {
        match(line, /[^\t -~]/)
        return "character " RSTART " isn't a plain one: a line has printable ASCII, blanks and tabs, nothing else"
    }
    if (kind == "unknownline") return why_unknown_line()
    if (kind == "shape") return why_shape()
    if (kind == "number") {
        if (word[1] == "require") return why_no_number(word[4])
        if (word[1] == "term") return why_no_number(word[count])
        if (word[1] == "cell" && !is_number(word[2])) return "after cell comes the number of one cell"
        bad = first_bad_number(word[1] == "cell" ? 3 : 2, word[1] != "cells")
        return bad == "" ? "a number is out of reach" : why_no_number(bad)
    }
    if (kind == "nocells") return "a line \"cells N\" comes first"
    if (kind == "cellstwice") return "line " cells_line " has the number of cells"
    if (kind == "cellrange" && word[1] == "cells") return "a series has 1 to 512 cells"
    if (kind == "cellrange") return "the model has " cells " cells, counted from 1"
    if (kind == "empty") return why_empty()
    if (kind == "unknownname") return why_unknown_name()
    if (kind == "badpair") return "the feature one goes with sum alone: write \"count " shown(word[6]) "\""
    if (kind == "unknownterm")
        return "no term line before this one has the name \"" word[2] "\"" meant(word[2], terms)
    if (kind == "termtwice") return "line " term_line[word[2]] " has a term of that name"
    if (kind == "objectivetwice") return "line " objective_line " has the objective"
    if (kind == "noobjective")
        return "the model needs a line \"objective NAME\"" (terms == "" ? "" : ", NAME being one of" terms)
    if (kind == "limit") return why_limit()
    return kind
}

# What is wrong after the line %%.
function why_series(kind) {
    if (!has_mark) return "no line %% ends the model; after it comes a line \"series V ..\""
    if (kind == "length") return "the model has " cells " cells, the series " values " numbers"
    if (kind == "number") return "a value is a whole number from -1000000 to 1000000"
    return "after the line %% comes one line \"series V ..\" and nothing else; of an answer: grep ^series ANSWER"
}

function why_certificate(number) {
    if (!has_mark) return "no line %% ends the model; after it comes the certificate"
    if (returns) return "a certificate has no CR before a line's end: take them out by tr -d '\\r'"
    return "line " number " after the line %% isn't as a certificate has it there; is it a whole answer, and no more?"
}

BEGIN {
    aggregators = "sum max min"
    features = "one width surf max min range"
    patterns = "increasing decreasing steady increasing_sequence decreasing_sequence strictly_increasing_sequence " \
        "strictly_decreasing_sequence steady_sequence increasing_terrace decreasing_terrace inflexion peak valley " \
        "plateau plain proper_plateau proper_plain summit gorge zigzag dip_on_increasing_sequence " \
        "bump_on_decreasing_sequence"
    planners["hill"] = "peak"; planners["run"] = "plateau"; planners["pause"] = "plain"; planners["hollow"] = "valley"
    planners["rise"] = "increasing"; planners["fall"] = "decreasing"; planners["turn"] = "inflexion"
    planners["climb"] = "increasing_sequence"; planners["descent"] = "decreasing_sequence"
    planners["landing"] = "increasing_terrace"; planners["level"] = "steady_sequence"
    planners["surface"] = "surf"; planners["length"] = planners["duration"] = "width"
    planners["height"] = planners["step"] = planners["swing"] = "range"
    signs["=>"] = ">="; signs["=<"] = "<="; signs["=="] = "="; signs["<>"] = signs["=!"] = signs["/="] = "!="
    form["cells"] = "cells N"
    form["domain"] = "domain R .., where R is a number or a range such as 0..9"
    form["cell"] = "cell K R .., where R is a number or a range such as 0..9"
    form["term"] = "term NAME = AGGREGATOR FEATURE PATTERN, or term NAME = count PATTERN; after either, in A..B"
    form["require"] = "require NAME <= B, where B is a number; also = != >= < >"
    form["objective"] = "objective NAME"
    split(answer, told, " ")
    wanted = told[2] == "model" ? told[4] + 0 : 0
}

{ sub(/\r$/, "") && has_mark && (returns = 1) }
has_mark && $1 == "series" { values = NF - 1 }
NF == 1 && $1 == "%%" { has_mark = 1 }
NR == wanted { line = $0; count = split($0, word, " ") }
wanted && NR > wanted { exit }
has_mark || NR == wanted { next }
$1 == "cells" && !cells_line { cells_line = NR; cells = $2 }
$1 == "term" && is_name($2) && !($2 in term_line) { term_line[$2] = NR; terms = terms " " $2 }
$1 == "objective" && !objective_line { objective_line = NR }

END {
    if (told[2] == "model") {
        if (line != "") tell("line " wanted ": " shown(line))
        tell(why(told[5]))
        if (word[1] in form && told[5] != "unknownline") tell("the form: " form[word[1]])
    } else if (told[2] == "series")
        tell(why_series(told[3]))
    else if (told[2] == "certificate")
        tell(why_certificate(told[4]))
    else if (told[2] == "length")
        tell("the input is too long: 1 MiB at most, for check 2 MiB, for verify 129 MiB")
}
