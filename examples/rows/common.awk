# What the plan of the calls and the judgement of their answers have in common.

# The text of a file as one string; byte 1 stands in no answer, so that nothing cuts it.
function content(file,   text, kept, got) {
    kept = RS
    RS = sprintf("%c", 1)
    got = (getline text < file)
    close(file)
    RS = kept
    return got > 0 ? text : ""
}

# A text as it is reported: `/` for a line's end, and no more than its beginning.
function shown(text) {
    if (length(text) > 200) text = substr(text, 1, 200) ".."
    gsub(/\n/, "/", text)
    return text
}

# Writes down a call: its words, its input, and in which way its answer is compared with what is wanted. A slow call
# gets its input byte by byte.
function call(words, input, slow, kind, status, wanted) {
    id++
    printf "%s", input > (dir "/in/" id)
    close(dir "/in/" id)
    printf "%s", wanted > (dir "/wanted/" id)
    close(dir "/wanted/" id)
    print id "|" words "|" slow > (dir "/plan")
    print id "|" place "|" words "|" kind "|" status > (dir "/calls")
}

# The model, ended by a line's end, the line %% and what comes after it.
function behind(model, text) {
    return model (model ~ /\n$/ ? "" : "\n") "%%\n" text
}

# The words of a text, cut at blanks, from the one at a place on.
function words_from(text, place,   parts, n, k, rest) {
    n = split(text, parts, " ")
    rest = ""
    for (k = place; k <= n; k++) rest = rest (k > place ? " " : "") parts[k]
    return rest
}
