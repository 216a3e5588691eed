# Makes a line `series V ..` of a column of CSV; `series_of_csv` runs it. Fields are parted by ; or tabs, where the
# first line has one, else by commas; a decimal comma is taken where they aren't.

function give_up(text) {
    print self ": " text > "/dev/stderr"
    ended = 65
    exit ended
}

function nearest(x) { return x < 0 ? -nearest(-x) : int(x + 0.5) }

NR == 1 { sub(/^\357\273\277/, "") } # the mark that some programs put before UTF-8
NR == 1 { parted = /;/ ? ";" : /\t/ ? "\t" : "," }
/^[ \t]*$/ { next }
{
    fields = split($0, field, parted)
    if (column > fields) give_up("line " NR " has no column " column)
    text = column ? field[column] : field[fields]
    gsub(/^[ "]+|[ "]+$/, "", text)
    if (parted != ",") sub(/,/, ".", text)
    if (text !~ /^[-+]?[0-9]+(\.[0-9]*)?([eE][-+]?[0-9]+)?$/) {
        if (NR == 1) next
        give_up("line " NR " has \"" substr(text, 1, 40) "\" where a number should be")
    }
    if (!unit && text + 0 != int(text)) give_up("line " NR " has " text ", no whole number; --unit 1 rounds it")
    number = nearest(text / (unit ? unit : 1))
    if (number > 1000000 || number < -1000000) give_up("line " NR " has " text ", beyond 1000000; choose a --unit")
    series = series " " sprintf("%d", number)
    cells++
}
END {
    if (ended) exit ended
    if (!NR) give_up("the input is empty; it takes lines of CSV")
    if (!cells) give_up("there is no number in the input")
    if (cells > 512) give_up("there are " cells " values, and a series has at most 512")
    print "series" series
}
