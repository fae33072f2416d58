# Writes the lines of a script out of the source of the manual page, docs/aspaview.1: a page of all of them, or those of the word WORD, each
# with its example. Each one there is an item `.It Cm`, and behind it stand two comments, its effect and its example. Where there is no line
# of this word the status is 1.

# spelled: the words and arguments of an item, as `details [VERDICT]` for `.It Cm details Op Ar VERDICT`.
function spelled(    text, i, joined, closing) {
    text = $3
    for (i = 4; i <= NF; i++) {
        if ($i == "Ar" || $i == "Ns") continue
        if ($i == "...") $i = ".."
        if ($i == "Op") { text = text " ["; closing = "]"; joined = 1; continue }
        if ($i == ":") { text = text ":"; joined = 1; continue }
        text = text (joined ? "" : " ") $i
        joined = 0
    }
    return text closing
}

function show() {
    if (WORD == "" && heading != "") printf "\n%s\n", heading
    heading = ""
    printf "%s%-30s %s\n", (WORD == "" ? "  " : ""), line, effect
    if (WORD != "") printf "  example: %s\n", example
    shown = 1
}

/^\.S[sh] / { inside = $0 == ".Ss The script" }
!inside { next }
/^\.It Cm / { line = spelled(); word = $3; next }
/^\.\\" effect: / { effect = substr($0, length(".\\\" effect: ") + 1); next }
/^\.\\" example: / {
    example = substr($0, length(".\\\" example: ") + 1)
    if (WORD == "" || WORD == word) show()
    next
}
/^\.Bl / { heading = before }
{ before = $0 }
END { exit !shown }
