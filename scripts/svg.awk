# Draws as an SVG picture what series.awk read: the series one below the other, each with a band of the values that the
# model allows its cells, bars, lines at round values, and the values above the bars where they have room.

function text_at(x, y, anchor, what, more) {
    emit("<text x=\"" x "\" y=\"" y "\" text-anchor=\"" anchor "\"" more ">" what "</text>")
}

function escaped(text) {
    gsub(/&/, "\\&amp;", text)
    gsub(/</, "\\&lt;", text)
    gsub(/>/, "\\&gt;", text)
    return text
}

# A round number, 1, 2 or 5 times a power of ten, such that at most so many of them make the height.
function round_step(height, most,    power) {
    for (power = 1; ; power *= 10) {
        if (height <= most * power) return power
        if (height <= most * 2 * power) return 2 * power
        if (height <= most * 5 * power) return 5 * power
    }
}

# The scale is the same for all series: from 0, or a little off the nearest value where all are far from 0; and with
# what the model allows, where that isn't so much more that the bars would get lost in it.
function measure(    number, i, k, part, one, many, lowest, highest, room) {
    low = high = ""
    for (number = 1; number <= count; number++) {
        take_series(number)
        for (i = 1; i <= cells; i++) {
            if (low == "" || value[i] < low) low = value[i]
            if (high == "" || value[i] > high) high = value[i]
        }
    }
    lowest = least = low
    highest = high
    if (has_model)
        for (i = 1; i <= cells; i++) {
            many = split(i in allowed ? allowed[i] : domain, one, " ")
            for (k = 1; k <= many; k++) {
                split(one[k], part, /\.\./)
                if (part[1] + 0 < lowest) lowest = part[1] + 0
                if (part[2] + 0 > highest) highest = part[2] + 0
            }
        }
    if (low > 0 && high - low >= high / 3 || low <= 0 && high >= 0) base = 0
    else if (high < 0 && high - low >= -low / 3) base = 0
    else base = low > 0 ? "low" : "high"
    room = base == "low" || base == "high" ? high - low : (high > 0 ? high : 0) - (low < 0 ? low : 0)
    if (room < 1) room = 1
    if (highest - high <= room) high = highest
    if (low - lowest <= room) low = lowest
    if (base == 0) {
        if (low > 0) low = 0
        if (high < 0) high = 0
    }
    grid = round_step(high - low, 5)
    low = grid * floor(low / grid) - (base == "low" ? grid : 0)
    high = -grid * floor(-high / grid) + (base == "high" ? grid : 0)
    if (high == low) high = low + grid
    if (base != 0) base = base == "low" ? low : high
}

function across(cell) { return left + (cell - 1) * width }
function down(number) { return sprintf("%.1f", top + plot * (high - number) / (high - low)) + 0 }

# The allowed values of the cells, each run of cells that have the same as one piece; a single value is 3 high.
function draw_band(    i, first, this, k, many, one, part, upper, lower, path) {
    path = ""
    first = 1
    for (i = 1; i <= cells; i++) {
        this = i in allowed ? allowed[i] : domain
        if (i < cells && this == (i + 1 in allowed ? allowed[i + 1] : domain)) continue
        many = split(this, one, " ")
        for (k = 1; k <= many; k++) {
            split(one[k], part, /\.\./)
            while (k < many && one[k + 1] ~ ("^" (part[2] + 1) "\\.\\.")) {
                k++
                part[2] = one[k]
                sub(/.*\.\./, "", part[2])
            }
            if (part[1] + 0 > high || part[2] + 0 < low) continue
            upper = down(part[2] + 0 > high ? high : part[2]) - 1.5
            lower = down(part[1] + 0 < low ? low : part[1]) + 1.5
            path = path "M" across(first) " " upper "H" across(i + 1) "V" lower "H" across(first) "z"
        }
        first = i + 1
    }
    emit("<path fill=\"#cfe3d4\" d=\"" path "\"/>")
}

function is_allowed(cell,    k, many, one, part) {
    if (!has_model) return 1
    many = split(cell in allowed ? allowed[cell] : domain, one, " ")
    for (k = 1; k <= many; k++) {
        split(one[k], part, /\.\./)
        if (value[cell] >= part[1] + 0 && value[cell] <= part[2] + 0) return 1
    }
    return 0
}

# The bars, those of values that the model doesn't allow in another colour.
function draw_bars(    i, path, gap) {
    gap = width > 6 ? int(width / 6) : width > 3 ? 1 : 0
    path[0] = path[1] = ""
    for (i = 1; i <= cells; i++)
        if (value[i] != base)
            path[is_allowed(i)] = path[is_allowed(i)] "M" (across(i) + gap) " " down(base) "V" down(value[i]) \
                "h" (width - 2 * gap) "V" down(base) "z"
    if (path[1] != "") emit("<path fill=\"#2f6690\" d=\"" path[1] "\"/>")
    if (path[0] != "") emit("<path fill=\"#c0392b\" d=\"" path[0] "\"/>")
}

# Above each stretch of cells with one value, where it has room for it; below where bars hang.
function draw_values(    i, first, y) {
    first = 1
    for (i = 1; i <= cells; i++) {
        if (i < cells && value[i] == value[i + 1]) continue
        y = down(value[i]) + (value[i] < base ? 11 : -3)
        if (6 * length(value[i]) + 1 <= (i - first + 1) * width)
            text_at((across(first) + across(i + 1)) / 2, y, "middle", value[i])
        first = i + 1
    }
}

function draw_lines(    number, y, ink) {
    for (number = low; number <= high; number += grid) {
        y = down(number)
        ink = number == base ? "#444" : "#000\" stroke-opacity=\".13"
        emit("<path stroke=\"" ink "\" d=\"M" left " " y "H" across(cells + 1) "\"/>")
        text_at(left - 5, y + 4, "end", number)
    }
}

# Labels far enough apart; a time stands at the left edge of its cell, where it begins, a number below its middle.
function draw_labels(    i, apart, x, bottom) {
    if (is_clock) {
        for (apart = 60 % step_label ? 1 : 60 / step_label; apart * width < 40; ) apart *= 2
        if (step_label * apart == 480 || step_label * apart == 960) apart *= 1.5
    } else
        for (apart = 1; apart * width < 6 * label_length() + 8; ) apart *= apart ~ /^2/ ? 2.5 : 2
    bottom = top + plot
    for (i = 1; i <= cells + is_clock; i++) {
        if (!is_round(i, apart) && !(i == 1 && from == "" && apart * width > 30)) continue
        x = across(i) + (is_clock ? 0 : width / 2)
        if (is_clock) emit("<path stroke=\"#444\" d=\"M" x " " bottom "v4\"/>")
        text_at(x, bottom + hang + 16, "middle", label(i))
    }
}

# The ranges of an answer of mark below the labels, each with its number where it has room.
function draw_marks(    k, y, wide, path, y_of_number) {
    path = ""
    y_of_number = top + plot + hang + 19
    for (k = 1; k <= marks; k++) {
        y = top + plot + hang + 10 + 14 * mark_row[k]
        wide = (mark_last[k] - mark_first[k] + 1) * width
        path = path "M" across(mark_first[k]) " " y "h" wide "v11h-" wide "z"
    }
    emit("<path fill=\"#e0b040\" stroke=\"#fff\" d=\"" path "\"/>")
    for (k = 1; k <= marks; k++)
        if (6 * length(k) + 2 <= (mark_last[k] - mark_first[k] + 1) * width)
            text_at((across(mark_first[k]) + across(mark_last[k] + 1)) / 2, y_of_number + 14 * mark_row[k], "middle", k)
}

function draw_all(    number, i, heading, picture_width, picture_height, panel, head) {
    measure()
    width = floor(880 / cells)
    if (width > 40) width = 40
    if (width < 3) width = 3
    left = 14 + 7 * (length(low) > length(high) ? length(low) : length(high))
    plot = count > 1 ? 110 : 170
    head = title() == "" ? 18 : 36
    # room for the values of bars that hang down to the labels
    hang = least < base && plot * (least - low) < 14 * (high - low) ? 12 : 0
    panel = plot + head + hang + 24 + 14 * mark_rows
    picture_width = left + cells * width + 26
    if (picture_width < 240) picture_width = 240
    picture_height = count * panel + 8
    emit("<svg xmlns=\"http://www.w3.org/2000/svg\" width=\"" picture_width "\" height=\"" picture_height \
        "\" viewBox=\"0 0 " picture_width " " picture_height "\" font-family=\"sans-serif\" font-size=\"11\">")
    emit("<rect width=\"100%\" height=\"100%\" fill=\"#fff\"/>")
    for (number = 1; number <= count; number++) {
        take_series(number)
        top = (number - 1) * panel + head
        heading = escaped(title())
        if (wanted > 1) heading = heading ", series " number " of " wanted
        emit("<g><title>" (heading == "" ? "series" : heading) ": " series[number] "</title>")
        if (heading != "") text_at(left, top - 20, "start", heading, " font-weight=\"bold\"")
        if (has_model) draw_band()
        draw_lines()
        draw_bars()
        draw_values()
        draw_labels()
        if (marks) draw_marks()
        emit("</g>")
    }
    emit("</svg>")
}
