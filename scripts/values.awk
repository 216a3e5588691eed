# Writes the value of each term beside the lines of the model that speak of it: the requirements with their numbers, as
# a certificate counts them, the objective, and the other terms.   awk -f values.awk ANSWER_OF_CHECK MODEL

function row(what, text, name) { printf " %-15s %-28s %s\n", what, text, meaning[name] }

{ sub(/\r$/, "") }
FNR == NR { if ($1 == "value") value[$2] = $3; next }
$1 == "term" { names[++terms] = $2; meaning[$2] = $0; sub(/^[^=]*= */, "", meaning[$2]) }
$1 == "require" {
    told[$2] = 1
    row("requirement " (++requirements), $2 " " $3 " " $4 ": " value[$2], $2)
}
$1 == "objective" { objective = $2 }
END {
    if (objective != "") row("objective", objective ": " value[objective], objective)
    for (i = 1; i <= terms; i++)
        if (!(names[i] in told) && names[i] != objective) row("term", names[i] ": " value[names[i]], names[i])
}
