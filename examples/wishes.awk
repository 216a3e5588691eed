# Read by `wishes`: goes through all series of some cells and says of each whether a wish means it, by the wish's own
# words. A line for each series, in order: 1 or 0, or the amount that a wish wants great or small, a tab, the series.
# Where `free` names cells, these alone have all values, those that `on` names are 1, and the others have the first value.
# Level stretches: the greatest parts of the series with one value.
function stretch(    i) {
    stretches = 0
    for (i = 1; i <= cells; i++) {
        if (i == 1 || x[i] != x[i - 1]) { stretches++; from[stretches] = i; level[stretches] = x[i] }
        to[stretches] = i
    }
}
function take(i, j) { parts++; first[parts] = i; last[parts] = j }

# Runs and pauses: stretches above, or below, both neighbours. At the ends a stretch counts only where `ends` is set.
function runs(up, ends,    i) {
    parts = 0
    for (i = 1; i <= stretches; i++)
        if ((i > 1 ? up * (level[i] - level[i - 1]) > 0 : ends) &&
            (i < stretches ? up * (level[i] - level[i + 1]) > 0 : ends))
            take(from[i], to[i])
}
# Hills and hollows: from a run or a pause down to the feet on both sides, the feet left out.
function hills(up, ends,    i, l, r) {
    parts = 0
    for (i = 1; i <= stretches; i++) {
        for (l = i; l > 1 && up * (level[l] - level[l - 1]) > 0;) l--
        for (r = i; r < stretches && up * (level[r] - level[r + 1]) > 0;) r++
        if (l == 1 && ends) l = 0
        if (r == stretches && ends) r++
        if (l < i && i < r) take(l ? to[l] + 1 : 1, r > stretches ? cells : from[r] - 1)
    }
}
# Landings: stretches of two hours or more, between two rises (up is 1) or two falls.
function landings(up,    i) {
    parts = 0
    for (i = 2; i < stretches; i++)
        if (to[i] > from[i] && up * (level[i] - level[i - 1]) > 0 && up * (level[i + 1] - level[i]) > 0)
            take(from[i], to[i])
}
function all_stretches(    i) { parts = 0; for (i = 1; i <= stretches; i++) take(from[i], to[i]) }

function shortest(    k, n) { n = 999; for (k = 1; k <= parts; k++) if (hours(k) < n) n = hours(k); return n }
function longest(    k, n) { n = 0; for (k = 1; k <= parts; k++) if (hours(k) > n) n = hours(k); return n }
function hours(k) { return last[k] - first[k] + 1 }
function all_hours(    k, n) { n = 0; for (k = 1; k <= parts; k++) n += hours(k); return n }
function units(k,    i, n) { n = 0; for (i = first[k]; i <= last[k]; i++) n += x[i]; return n }
function most_units(    k, n) { n = 0; for (k = 1; k <= parts; k++) if (units(k) > n) n = units(k); return n }
function all_units(    k, n) { n = 0; for (k = 1; k <= parts; k++) n += units(k); return n }
function top(k,    i, n) { n = x[first[k]]; for (i = first[k]; i <= last[k]; i++) if (x[i] > n) n = x[i]; return n }
function floor(k,    i, n) { n = x[first[k]]; for (i = first[k]; i <= last[k]; i++) if (x[i] < n) n = x[i]; return n }
function highest_top(    k, n) { n = -999; for (k = 1; k <= parts; k++) if (top(k) > n) n = top(k); return n }
function lowest_top(    k, n) { n = 999; for (k = 1; k <= parts; k++) if (top(k) < n) n = top(k); return n }
function lowest_floor(    k, n) { n = 999; for (k = 1; k <= parts; k++) if (floor(k) < n) n = floor(k); return n }
function all_tops(    k, n) { n = 0; for (k = 1; k <= parts; k++) n += top(k); return n }

# Differences from one cell to the next, those one way.
function greatest_step(up,    i, n) {
    n = 0
    for (i = 1; i < cells; i++) if (up * (x[i + 1] - x[i]) > n) n = up * (x[i + 1] - x[i])
    return n
}
function least_step(up,    i, n, step) {
    n = 999
    for (i = 1; i < cells; i++) {
        step = up * (x[i + 1] - x[i])
        if (step > 0 && step < n) n = step
    }
    return n
}
function all_steps(up, a, b,    i, n) {
    n = 0
    for (i = a; i < b; i++) if (up * (x[i + 1] - x[i]) > 0) n += up * (x[i + 1] - x[i])
    return n
}
# How far it goes one way at most, between two cells, without a step back; and how far at least, from turn to turn.
function farthest_climb(up,    i, j, n) {
    n = 0
    for (i = 1; i < cells; i++)
        for (j = i + 1; j <= cells && up * (x[j] - x[j - 1]) >= 0; j++)
            if (up * (x[j] - x[i]) > n) n = up * (x[j] - x[i])
    return n
}
function shortest_climb(up,    i, n, now) {
    n = 999
    now = 0
    for (i = 1; i <= cells; i++) {
        if (i < cells && up * (x[i + 1] - x[i]) >= 0) { now += up * (x[i + 1] - x[i]); continue }
        if (now > 0 && now < n) n = now
        now = 0
    }
    return n
}
function widest_part(    k, n) {
    n = 0
    for (k = 1; k <= parts; k++) if (top(k) - floor(k) > n) n = top(k) - floor(k)
    return n
}
# How high a hill is above the lower one of its feet; and a climb to the last hour, or a descent from the first one.
function highest_hill(    k, n, foot) {
    hills(1)
    n = 0
    for (k = 1; k <= parts; k++) {
        foot = x[first[k] - 1] < x[last[k] + 1] ? x[first[k] - 1] : x[last[k] + 1]
        if (top(k) - foot > n) n = top(k) - foot
    }
    return n
}
function end_climb(    i, j) {
    for (i = 1; i < cells && x[i + 1] <= x[i];) i++
    for (j = cells; j > 1 && x[j - 1] <= x[j];) j--
    return x[1] - x[i] > x[cells] - x[j] ? x[1] - x[i] : x[cells] - x[j]
}
function drifts_one_way(a, b, by,    i, up, down) {
    for (i = a; i < b; i++) { up += x[i + 1] > x[i]; down += x[i + 1] < x[i] }
    return !(up && down) && x[b] - x[a] <= by && x[a] - x[b] <= by
}

function steps(up,    i, n) { n = 0; for (i = 1; i < cells; i++) n += up * (x[i + 1] - x[i]) > 0; return n }
function steps_running(up,    i, n, most) {
    n = most = 0
    for (i = 1; i < cells; i++) { n = up * (x[i + 1] - x[i]) > 0 ? n + 1 : 0; if (n > most) most = n }
    return most
}
# The hours from the first rise to the last one of a climb that never falls, that of its foot too.
function longest_climb(up,    i, j, k, most) {
    most = 0
    for (i = 1; i < cells; i++)
        for (j = i + 1; j <= cells && up * (x[j] - x[j - 1]) >= 0; j++)
            if (x[i] != x[i + 1] && x[j] != x[j - 1] && j - i + 1 > most) most = j - i + 1
    return most
}
function turns(until,    i, n, way, now) {
    n = way = 0
    for (i = 1; i < until; i++) {
        now = (x[i + 1] > x[i]) - (x[i + 1] < x[i])
        if (now) { n += way && now != way; way = now }
    }
    return n
}
# Changes of level that follow each other at once, up and down in turn.
function in_turn(    i, n, most, way, now) {
    n = most = way = 0
    for (i = 1; i < cells; i++) {
        now = (x[i + 1] > x[i]) - (x[i + 1] < x[i])
        n = !now ? 0 : now == -way ? n + 1 : 1
        if (n > most) most = n
        way = now
    }
    return most
}
# The hours of the parts that lie in these hours whole.
function hours_within(a, b,    k, n) {
    n = 0
    for (k = 1; k <= parts; k++) if (first[k] >= a && last[k] <= b) n += hours(k)
    return n
}
function parts_within(a, b,    k, n) {
    n = 0
    for (k = 1; k <= parts; k++) if (first[k] >= a && last[k] <= b) n++
    return n
}
function rises_into(a, b,    i) { for (i = a; i <= b; i++) if (x[i] > x[i - 1]) return 1; return 0 }
function rises_from(a,    i) { for (i = a; i < cells; i++) if (x[i + 1] > x[i]) return 1; return 0 }
function total(    i, n) { n = 0; for (i = 1; i <= cells; i++) n += x[i]; return n }
function level_hours(    i, n) {
    n = 0
    for (i = 1; i <= stretches; i++) if (to[i] > from[i]) n += to[i] - from[i] + 1
    return n
}
function inner_shortest(    i, n) {
    n = 999
    for (i = 2; i < stretches; i++) if (to[i] - from[i] + 1 < n) n = to[i] - from[i] + 1
    return n
}

function is(words) { if (wish == "?") print words; return wish == words }

# Whether the wish means the series; of a wish for as much or as little as possible the amount.
function wanted() {
    if (is("exactly two runs")) { runs(1); return parts == 2 }
    if (is("no run shorter than three hours")) { runs(1); return shortest() >= 3 }
    if (is("no run longer than four hours")) { runs(1); return longest() <= 4 }
    if (is("at most three hours of runs in all")) { runs(1); return all_hours() <= 3 }
    if (is("no pause shorter than two hours")) { runs(-1); return shortest() >= 2 }
    if (is("no pause longer than two hours")) { runs(-1); return longest() <= 2 }
    if (is("at most two hills")) { hills(1); return parts <= 2 }
    if (is("first up, then down, and never up again")) return !dips()
    if (is("no hill shorter than three hours")) { hills(1); return shortest() >= 3 }
    if (is("at most four hours of hills in all")) { hills(1); return all_hours() <= 4 }
    if (is("the hills do not go above 80")) { hills(1); return highest_top() <= 80 }
    if (is("each hill reaches 50")) { hills(1); return lowest_top() >= 50 }
    if (is("the hollows do not go below 20")) { hills(-1); return lowest_floor() >= 20 }
    if (is("at most 60 units in a hill, over all its hours")) { hills(1); return most_units() <= 60 }
    if (is("as much as possible on the tops of the hills, each counted once")) { hills(1); return all_tops() }
    if (is("as few units in the hills as possible")) { hills(1); return all_units() }
    if (is("no rise in two hours running")) return steps_running(1) <= 1
    if (is("at most two rises in all")) return steps(1) <= 2
    if (is("no fall at all")) return steps(-1) == 0
    if (is("no climb longer than four hours, with its level hours")) return longest_climb(1) <= 4
    if (is("no level kept for more than three hours")) { all_stretches(); return longest() <= 3 }
    if (is("at least one level kept for four hours")) { all_stretches(); return longest() >= 4 }
    if (is("at least five hours at levels kept for two hours or more")) return level_hours() >= 5
    if (is("a landing on the way up lasts at least three hours")) { landings(1); return shortest() >= 3 }
    if (is("at most two turns between up and down")) return turns(cells) <= 2
    if (is("at most three changes running, up and down in turn")) return in_turn() <= 3
    if (is("a run within hours 2 to 5")) { runs(1); return hours_within(2, 5) > 0 }
    if (is("the top of a hill within hours 3 to 5")) { runs(1); return hours_within(3, 5) > 0 }
    if (is("at most two hours of whole runs within hours 3 to 6")) { runs(1); return hours_within(3, 6) <= 2 }
    if (is("no rise after hour 4")) return !rises_from(4)
    if (is("one level from hour 2 to hour 5")) return x[2] == x[3] && x[3] == x[4] && x[4] == x[5]
    if (is("more in hour 4 than in hour 3")) return x[4] > x[3]
    if (is("at most one turn between up and down in the first five hours")) return turns(5) <= 1
    if (is("no rise of more than 15 from one hour to the next, and no fall of more than 10"))
        return greatest_step(1) <= 15 && greatest_step(-1) <= 10
    if (is("no change of less than 10 from one hour to the next")) return least_step(1) >= 10 && least_step(-1) >= 10
    if (is("each rise is by 10")) return least_step(1) >= 10 && greatest_step(1) <= 10
    if (is("at most 100 of rises in all")) return all_steps(1, 1, cells) <= 100
    if (is("as little charged as possible, over all hours")) return all_steps(1, 1, cells)
    if (is("no climb of more than 40, with its level hours")) return farthest_climb(1) <= 40
    if (is("no ripple: each climb and each descent is of at least 20"))
        return shortest_climb(1) >= 20 && shortest_climb(-1) >= 20
    if (is("no hill higher than 40 above either of its feet, and no climb or descent at an end either"))
        return highest_hill() <= 40 && end_climb() <= 40
    if (is("the hours of a hill, its feet aside, differ by at most 2")) { hills(1); return widest_part() <= 2 }
    if (is("from hour 2 to hour 5 the level drifts by at most 2, all one way")) return drifts_one_way(2, 5, 2)
    if (is("at most 30 charged from hour 3 to hour 6")) return all_steps(1, 3, 6) <= 30
    if (is("a hill with its top between six and nine o'clock")) { runs(1); return hours_within(25, 36) > 0 }
    if (is("a shift between 5:00 and 13:00, one between 15:00 and 23:00, and no other")) {
        runs(1)
        return parts == 2 && parts_within(21, 52) == 1 && parts_within(61, 92) == 1
    }
    if (is("no start between 17:00 and 20:00, while electricity is dear")) return !rises_into(69, 80)
    if (is("at most three hours of whole runs in the night, until 6:00")) { runs(1); return hours_within(1, 24) <= 12 }
    if (is("each level but the first and the last is kept for at least two hours")) return inner_shortest() >= 2
    if (is("each level but the first and the last is kept for at least three hours")) return inner_shortest() >= 3
    if (is("no run shorter than three hours, at the ends too")) { runs(1, 1); return shortest() >= 3 }
    if (is("at most two hills, at the ends too")) { hills(1, 1); return parts <= 2 }
    if (is("no pause shorter than two hours, at the ends too")) { runs(-1, 1); return shortest() >= 2 }
    if (is("the hollows do not go below 20, at the ends too")) { hills(-1, 1); return lowest_floor() >= 20 }
    if (is("of a machine that is on or off: no run shorter than three hours, at the ends too")) {
        runs(1, 1)
        return all_on_stretches() >= 3
    }
    if (is("at most five units in all: of B = 0, 1, .. 5 one has a plan")) return total() <= 5
    if (is("as few units in all as possible, with at most one hill")) {
        hills(1, 1)
        return parts <= 1 ? total() : "out"
    }
    return "unknown"
}
# Whether it rises somewhere after a fall.
function dips(    i, fell) {
    for (i = 1; i < cells; i++) {
        if (x[i + 1] < x[i]) fell = 1
        if (x[i + 1] > x[i] && fell) return 1
    }
    return 0
}
# The shortest stretch of hours that are on.
function all_on_stretches(    i) {
    parts = 0
    for (i = 1; i <= stretches; i++) if (level[i] > 0) take(from[i], to[i])
    return shortest()
}

BEGIN {
    if (wish == "?") { wanted(); exit }
    choices = split(values, value, " ")
    for (i = 1; i <= cells; i++) x[i] = value[1]
    for (i = split(on, fixed, " "); i > 0; i--) x[fixed[i]] = 1
    many = split(free, place, " ")
    if (!many) for (many = 0; many < cells;) { many++; place[many] = many }
    for (i = 1; i <= many; i++) at[i] = 1
    do {
        for (i = 1; i <= many; i++) x[place[i]] = value[at[i]]
        stretch()
        is_meant = wanted()
        if (is_meant == "unknown") { print is_meant; exit }
        printf "%s\tseries", is_meant
        for (i = 1; i <= cells; i++) printf " %d", x[i]
        print ""
        for (i = many; i > 0 && at[i] == choices; i--) at[i] = 1
        at[i]++
    } while (i > 0)
}
