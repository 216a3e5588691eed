# Judges the answers to the calls, and writes down the calls of the second round: each certificate is verified, as it is
# and, where a table of models has it, with a line left open and with a false claim.

BEGIN {
    FS = "|"
    id = 0
    while ((getline line < (dir "/statuses")) > 0) {
        split(line, parts, "|")
        status[parts[1]] = parts[2]
        id = parts[1]
    }
    while ((getline line < (dir "/called")) > 0) {
        split(line, parts, "|")
        judged(parts[1], parts[2], parts[3], parts[4], parts[5])
    }
    while (round == 1 && (getline line < (dir "/certificates")) > 0) {
        split(line, parts, "|")
        place = parts[2]
        if (parts[1] == "false") false_claims(parts[3])
        else model_certificates(parts[3], parts[4], parts[5], parts[6])
    }
    print count + 0 "|" wrong + 0 > (dir "/counts")
}

function differs(what) {
    print "DIFFERS " at " (" words "): " what
    wrong++
}

function judged(call_id, call_place, call_words, kind, wanted_status,   answer, wanted, right) {
    at = call_place
    words = call_words
    count++
    if (!(call_id in status)) { differs("it wasn't called"); return }
    told = status[call_id]
    answer = content(dir "/answers/" call_id)
    wanted = content(dir "/wanted/" call_id)
    if (wanted_status != "" && told != wanted_status) {
        differs("the status is " told " and not " wanted_status ", the answer '" shown(answer) "'")
        return
    }
    if (told > 3) { differs("the status is " told); return }
    if (kind == "is") right = is_like(answer, wanted)
    else if (kind == "begins otherwise") right = substr(answer, 1, length(wanted)) != wanted
    else if (kind == "best") right = is_best(answer, wanted)
    else right = is_first(answer, wanted)
    if (!right) differs("the answer is '" shown(answer) "' and not '" shown(wanted) "'")
    if (round == 1 && kind == "is" && wanted_status != 2 && answer ~ /^(maximise|minimise|generate [0-9]+)\n/) {
        place = at
        verified(content(dir "/in/" call_id), answer, "accepted", 0)
    }
}

# Whether a text is the wanted one, in which ... stands for any text.
function is_like(text, wanted,   gap, front, back) {
    gap = index(wanted, "...")
    if (gap == 0) return text == wanted
    front = substr(wanted, 1, gap - 1)
    back = substr(wanted, gap + 3)
    return length(text) >= length(front) + length(back) && substr(text, 1, length(front)) == front \
        && substr(text, length(text) - length(back) + 1) == back
}

# The parts of a certificate: the aim, the claim, its series, and how many lines its tree has and how many are open.
function cut(answer,   n, k, ends) {
    n = split(answer, lines, "\n") - 1
    aim = lines[1]
    claim = lines[2]
    listed = tree = open = 0
    for (k = 3; k < n && lines[k] ~ /^series /; k++) series[++listed] = substr(lines[k], 8)
    tree_at = k
    for (; k < n; k++) {
        tree++
        if (lines[k] == "open") open++
    }
    end_at = n
    return lines[n] == "end " (tree - open) " " open
}

# A spent budget has as many other lines, some open ones, and is below twice the number of series, less one.
function is_spent(all, budget) {
    return told == 3 && open > 0 && tree - open == budget && int(budget / 2) < all
}

# SERIES|BUDGET|VALUE: SERIES, or `none`; or the budget is spent.
function is_best(answer, wanted,   parts, best) {
    split(wanted, parts, "|")
    if (!cut(answer) || aim != substr(words, 1, 8)) return 0
    if (claim == "infeasible") return parts[3] == "none" && told == 1
    if (claim ~ /^best /) {
        best = substr(claim, 6) ": " series[1]
        return best == parts[3] && listed == 1 && open == 0 && told == 0
    }
    return claim ~ /^budget / && is_spent(parts[1] + 0, parts[2] + 0)
}

# SERIES|BUDGET|MEETING|FIRST, ..: these are listed first, and all that meet where the claim says so.
function is_first(answer, wanted,   parts, asked, firsts, n, k, said) {
    split(wanted, parts, "|")
    split(words, asked, " ")
    if (!cut(answer) || aim != "generate " asked[2]) return 0
    n = parts[4] == "none" ? 0 : split(parts[4], firsts, ", ")
    for (k = 1; k <= n && k <= listed; k++) if (series[k] != firsts[k]) return 0
    split(claim, said, " ")
    if (said[1] == "full") return said[2] == asked[2] && listed == asked[2] && told == 0
    if (said[1] == "all") return said[2] == parts[3] && listed == parts[3] && told == (parts[3] == 0 ? 1 : 0)
    return said[1] == "budget" && listed < asked[2] + 0 && is_spent(parts[1] + 0, parts[2] + 0)
}

function verified(model, certificate, answer, wanted_status) {
    call("verify", behind(model, certificate), 0, "is", wanted_status, answer "\n")
}

# The calls of the greatest series, of the least one and of all: each with its last line left open is rejected there.
function model_certificates(greatest, least, all, meet) {
    ids[1] = greatest
    ids[2] = least
    ids[3] = all
    meeting = meet
    for (which = 1; which <= 3; which++) {
        model = content(dir "/in/" ids[which])
        answer[which] = content(dir "/answers/" ids[which])
        verified(model, answer[which], "accepted", 0)
        if (cut(answer[which])) verified(model, opened(), "rejected line " (end_at - 1), 1)
    }
}

function lines_from(first, last,   k, text) {
    text = ""
    for (k = first; k <= last; k++) text = text lines[k] "\n"
    return text
}

function opened() {
    return lines_from(1, end_at - 2) "open\nend " (tree - open - 1) " " (open + 1) "\n"
}

# A certificate with the answer of the other goal, and the list without its last series, are rejected at these lines; a
# 0 stands where such a claim is true.
function false_claims(row,   at_line, other, tail) {
    split(row, at_line, " ")
    for (which = 1; which <= 3; which++) {
        if (at_line[which] == 0) continue
        cut(answer[which])
        tail = lines_from(tree_at, end_at)
        if (which == 3) {
            other = aim "\nall " (meeting - 1) "\n" lines_from(3, tree_at - 2)
        } else {
            other = aim
            cut(answer[3 - which])
            other = other "\n" lines_from(2, tree_at - 1)
        }
        verified(model, other tail, "rejected line " at_line[which], 1)
    }
}
