# Draws for a terminal what series.awk read; `columns` is how wide it is.

function repeat(text, times,    all) {
    all = ""
    while (times-- > 0) all = all text
    return all
}
function put(row, column, text) {   # the row with the text so that it ends at that column
    if (length(row) < column) row = row repeat(" ", column - length(row))
    return substr(row, 1, column - length(text)) text substr(row, column + 1)
}
function tell(row) { sub(/ +$/, "", row); emit(row) }

# What one row is worth: 1, 2, 3, 4 or 5, times a power of ten, so that twelve rows hold the height.
function row_worth(height,    power, i) {
    for (power = 1; ; power *= 10)
        for (i = 1; i <= 5; i++)
            if (12 * i * power >= height) return i * power
}

# Bars stand on 0, or hang from it; but where all values lie close together and far from 0, a little off the nearest.
function measure(    i, low, high) {
    low = high = value[1]
    longest = 0
    for (i = 1; i <= cells; i++) {
        if (value[i] < low) low = value[i]
        if (value[i] > high) high = value[i]
        if (length(value[i]) > longest) longest = length(value[i])
    }
    base = 0
    if (low > 12 && high - low < high / 3) {
        worth = row_worth(high - low)
        base = worth * (floor(low / worth) - 1)
    } else if (high < -12 && high - low < -low / 3) {
        worth = row_worth(high - low)
        base = -worth * (floor(-high / worth) - 1)
    } else
        worth = row_worth((high > 0 ? high : 0) - (low < 0 ? low : 0))
    above = high > base ? -floor(-(high - base) / worth) : 0
    below = low < base ? -floor(-(base - low) / worth) : 0
}

# The widest column for a cell with which the series fits in one piece; else one character, in pieces of equal length.
function lay_out(    room, pieces) {
    margin = 9
    room = (columns < 40 ? 40 : columns) - margin
    for (width = (longest > 3 ? longest + 1 : 4); width > 1; width--)
        if (cells * width <= room) break
    piece = cells
    if (cells * width > room) {
        pieces = -floor(-cells / (room - room % 10))
        piece = -floor(-cells / pieces / 10) * 10
    }
    if (from == "")
        step = width > length(cells) ? 1 : width > 1 ? 5 : 10
    else if (is_clock)
        for (step = 60 % step_label ? 1 : 60 / step_label; step * width <= 5;) step *= 2
    else
        for (step = 1; step * width <= label_length(); ) step *= step ~ /^2/ ? 2.5 : 2
    if (is_clock && width > 5) step = 1
}

# How much of a row a bar fills: all, at least half, less, nothing.
function fill(part, less) { return part >= worth ? "#" : 2 * part >= worth ? ":" : part > 0 ? less : " " }

function label_row(first, last,    i, row, room) {
    row = is_clock ? " time" : " cell"
    for (i = first; i <= last; i++) {
        room = margin + (i - first + 1) * width - length(label(i)) - length(row)
        if (i == first && from == "" || is_round(i, step) && room > 0)
            row = put(row, margin + (i - first + 1) * width, label(i))
    }
    tell(row)
}

# The ranges of an answer of mark, each from its first to its last cell, with its number where it has room. Where the
# cells are wide a number ends below the first bar, as those of the other rows do.
function mark_lines(first, last,    k, r, row, from_cell, to_cell, line, number) {
    for (r = 1; r <= mark_rows; r++) {
        row = r == 1 ? " range" : ""
        for (k = 1; k <= marks; k++) {
            if (mark_row[k] != r || mark_first[k] > last || mark_last[k] < first) continue
            from_cell = mark_first[k] > first ? mark_first[k] : first
            to_cell = mark_last[k] < last ? mark_last[k] : last
            line = repeat("-", (to_cell - from_cell) * width + 1)
            number = k ""
            if (length(number) < width) line = number substr(line, 2)
            else if (length(number) <= length(line)) line = number substr(line, length(number) + 1)
            row = put(row, margin + (to_cell - first + 1) * width, line)
        }
        tell(row)
    }
}

function draw_piece(first, last,    i, r, row, at, sign) {
    label_row(first, last)
    for (r = above; r >= 1; r--) {
        row = put("", margin - 1, base + r * worth "")
        for (i = first; i <= last; i++)
            row = put(row, margin + (i - first + 1) * width, fill(value[i] - base - (r - 1) * worth, "."))
        tell(row)
    }
    row = put("", margin - 1, base "")
    emit(row " " repeat("-", (last - first + 1) * width))
    for (r = 1; r <= below; r++) {
        row = put("", margin - 1, base - r * worth "")
        for (i = first; i <= last; i++)
            row = put(row, margin + (i - first + 1) * width, fill(base - value[i] - (r - 1) * worth, "\47"))
        tell(row)
    }
    row = " sign"
    for (i = first; i <= last && i < cells; i++) {
        sign = value[i] < value[i + 1] ? "<" : value[i] == value[i + 1] ? "=" : ">"
        at = margin + (i - first + 1) * width + int(width / 2)
        row = put(row, at, sign)
    }
    if (cells > 1) tell(row)
    if (longest < width) {
        row = " value"
        for (i = first; i <= last; i++) row = put(row, margin + (i - first + 1) * width, value[i] "")
        tell(row)
    }
    if (marks) mark_lines(first, last)
}

# The values in rows of ten, where the columns of the bars are too narrow for them.
function value_rows(    i, row, heads) {
    heads = label_length() + 8
    for (i = 1; i <= cells; i++) {
        if (i % 10 == 1) row = put(i == 1 ? " value" : "", heads, label(i)) ":"
        row = row put("", longest + 1, value[i] "")
        if (i % 10 == 0 || i == cells) tell(row)
    }
}

function draw_all(    number, first, less, text) {
    for (number = 1; number <= count; number++) {
        take_series(number)
        measure()
        lay_out()
        if (number > 1) emit("")
        text = title()
        if (text != "") emit(text (wanted > 1 ? ", series " number " of " wanted : ""))
        for (first = 1; first <= cells; first += piece) {
            if (first > 1) emit("")
            draw_piece(first, first + piece - 1 < cells ? first + piece - 1 : cells)
        }
        less = below == 0 ? "." : above == 0 ? "\47" : ". or \47"
        if (worth > 1) emit(" a row is " worth ": # fills it, : half or more, " less " less")
        if (longest >= width) value_rows()
    }
}
