# Writes as CSV what series.awk read: a line for each cell, a column for each series.

function draw_all(    number, i, row, column) {
    row = is_clock ? "time" : "cell"
    for (number = 1; number <= count; number++) row = row ",value" (count > 1 ? " " number : "")
    emit(row)
    for (number = 1; number <= count; number++) {
        take_series(number)
        for (i = 1; i <= cells; i++) column[i] = column[i] "," value[i]
    }
    for (i = 1; i <= cells; i++) emit(label(i) column[i])
}
