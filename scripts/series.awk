# Reads what `draw` takes: the series, the aim and the claim of an answer, of a model what each cell may be, and of an
# answer of mark the ranges. Ends with 65 where it isn't that, and with 1 where it has no series. bars.awk or svg.awk
# draws it by `draw_all`.

function floor(x) { return x < int(x) ? int(x) - 1 : int(x) }
function emit(text) { drawing[++drawn_lines] = text }

function give_up(status, text) {
    print self ": " text > "/dev/stderr"
    ended = status
    exit status
}

function is_series(    i) {
    if (NF < 2 || NF > 513) return 0
    for (i = 2; i <= NF; i++)
        if ($i !~ /^(0|-?[1-9][0-9]*)$/ || length($i) > 8 || $i > 1000000 || $i < -1000000) return 0
    return 1
}

function take_series(number) {
    cells = split(series[number], value, " ")
    for (i = 1; i <= cells; i++) value[i] += 0
}

# What a cell begins at: its number, or as --from and --step say.
function label(cell,    minute) {
    if (from == "") return cell ""
    minute = first_label + (cell - 1) * step_label
    if (!is_clock) return minute ""
    minute %= 1440
    return sprintf("%02d:%02d", int(minute / 60), minute % 60)
}

function label_length(    i, longest) {
    longest = 0
    for (i = 1; i <= cells; i++) if (length(label(i)) > longest) longest = length(label(i))
    return longest
}

# Whether a label of this cell is a round one where every `apart` cells have one.
function is_round(cell, apart) {
    if (from == "") return cell % apart == 0
    return (first_label + (cell - 1) * step_label) % (apart * step_label) == 0
}

# The ranges of a `domain` or `cell` line from this word on, as words `low..high`.
function ranges(first,    i, part, all) {
    all = ""
    for (i = first; i <= NF; i++) {
        if ($i !~ /^-?[0-9]+(\.\.-?[0-9]+)?$/) return all
        if (split($i, part, /\.\./) == 1) part[2] = part[1]
        all = all " " (part[1] + 0) ".." (part[2] + 0)
    }
    return all
}

# A range of an answer of mark, in the first row where it touches no other one: two ranges may share cells.
function take_range(    row) {
    cells = split(series[1], value, " ")
    if (NF != 3 || $2 !~ /^[1-9][0-9]*$/ || $3 !~ /^[1-9][0-9]*$/ || $2 + 0 > $3 + 0 || $3 + 0 > cells)
        give_up(65, "line " NR " isn't a range of cells of the series")
    for (row = 1; row <= mark_rows && row_end[row] + 1 >= $2 + 0; ) row++
    if (row > mark_rows) mark_rows = row
    row_end[row] = $3 + 0
    mark_row[++marks] = row
    mark_first[marks] = $2 + 0
    mark_last[marks] = $3 + 0
}

function title(    text) {
    if (is_marked) return shape ", " (marks == 1 ? "1 occurrence" : marks + 0 " occurrences")
    text = aim
    if (objective != "" && aim ~ /imise$/) text = text " " objective
    return text == "" ? "" : text ", " claim
}

BEGIN {
    takes = "it takes an answer of maximise, minimise or generate, or an input of check, verify or mark"
    is_clock = from ~ /:/
    split(from, clock, ":")
    first_label = is_clock ? clock[1] * 60 + clock[2] : from + 0
    step_label = step_given != "" ? step_given : is_clock ? 60 : 1
}

/^(maximise|minimise|generate [0-9]+)$/ { aim = $0; expects_claim = 1; next }
expects_claim {
    if ($0 !~ /^((best|budget) ([-+]inf|-?[0-9]+)|infeasible|budget none|(full|all) [0-9]+)$/)
        give_up(65, "line " NR " isn't what comes after \"" aim "\" in an answer")
    claim = $0
    expects_claim = 0
    next
}
$1 == "%%" { behind = 1; next }
!behind && $1 == "cells" { has_model = 1; domain = " 0..9"; next }
!behind && $1 == "domain" { domain = ranges(2); for (i in allowed) delete allowed[i]; next }
!behind && $1 == "cell" { allowed[$2 + 0] = ranges(3); next }
!behind && $1 == "objective" { objective = $2; next }
!behind && ($1 == "catalogue" || $1 == "pattern") { shape = $2; next }
behind && count && $1 == "occurrences" { is_marked = 1; next }
is_marked && $1 == "range" { take_range(); next }
$1 == "series" {
    if (!is_series()) give_up(65, "line " NR " isn't a series of 1 to 512 whole numbers from -1000000 to 1000000")
    sub(/^[ \t]*series[ \t]+/, "")
    series[++count] = $0
}
$1 == "refused" && NR == 1 { refused = $0 }
behind && $1 == "refused" && shape != "" { refused = $0; count = 0 }

END {
    if (ended) exit ended
    if (!count) {
        if (claim ~ /^(infeasible|budget none|all 0|budget 0)$/) give_up(1, claim ": nothing to draw")
        if (refused != "") give_up(65, "nothing to draw, the answer is \"" refused "\"")
        if (!NR) give_up(65, "the input is empty; " takes)
        give_up(65, "the input has no series; " takes)
    }
    wanted = claim ~ /^(full|all|budget)/ && aim ~ /^generate/ ? substr(claim, index(claim, " ") + 1) + 0 : 1
    draw_all()
    for (i = 1; i <= drawn_lines; i++) print drawing[i]
}
