# Counts in a certificate, after its model and a line %%, the lines that name each requirement; `why` runs it. Ends
# with 65 where it isn't that. `self` is the name of the script that says so.

function give_up(text) {
    print self ": " text > "/dev/stderr"
    ended = 65
    exit ended
}

function times(number, what) { return number + 0 " " what (number == 1 ? "" : "s") }

{ sub(/\r$/, "") }
!aim && $1 == "term" { meaning[$2] = $0; sub(/^[^=]*= */, "", meaning[$2]) }
!aim && $1 == "require" {
    requirements++
    name[requirements] = $2
    wish[requirements] = $2 " " $3 " " $4
}
/^(maximise|minimise|generate [0-9]+)$/ { aim = $0; first = NR; next }
!aim { next }
NR == first + 1 { claim = $0 }
$1 == "no" && NF == 3 { closed[$2]++; if ($2 > most) most = $2 }
$1 == "drop" && NF == 4 { dropped[$4]++; if ($4 > most) most = $4 }
$1 == "worse" { worse++ }
$1 == "split" { split_lines++ }
$1 == "end" && NF == 3 { lines = $2; whole = 1 }

END {
    if (ended) exit ended
    if (!NR) give_up("the input is empty; it takes a model, a line %% and an answer of maximise, minimise or generate")
    if (!aim) give_up("the input has no answer of maximise, minimise or generate")
    if (!whole) give_up("the answer has no end line, so it isn't whole")
    if (requirements > most) most = requirements
    for (;;) {
        best = 0
        for (j = 1; j <= most; j++)
            if (!(j in shown) && closed[j] + dropped[j] > (best ? closed[best] + dropped[best] : 0)) best = j
        if (!best) break
        shown[best] = 1
        printf " requirement %d%s: named by %s, %d drop and %d no%s\n", best, best in wish ? ", " wish[best] : "", \
            times(closed[best] + dropped[best], "line"), dropped[best], closed[best], \
            name[best] in meaning ? " (" meaning[name[best]] ")" : ""
        named++
    }
    for (j = 1; j <= requirements; j++)
        if (!(j in shown)) unnamed = unnamed (unnamed == "" ? "" : "; ") j ", " wish[j]
    if (unnamed != "" && claim == "infeasible" && named && !worse)
        print " not named, so that without them no plan meets either: " unnamed
    else if (unnamed != "")
        print " not named: " unnamed
    printf " of %s; %s, %d worse\n", times(lines, "line"), times(split_lines, "split"), worse
}
