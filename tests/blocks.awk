# Cuts the code blocks out of a page, and the tables that are marked 'judged' or 'judged with suspects', each into three files of the folder OUT: its marker
# (N.how), its place (N.place) and its text (N.text). A block is indented by four blanks behind an empty line, or stands between fences.
function begin() {
    name = sprintf("%s/%s-%03d", OUT, PAGE, ++number)
    print marker > (name ".how")
    print FILENAME ":" FNR > (name ".place")
    printf "" > (name ".text")
    marker = ""
    gap = ""
}
# a marker without a block
function stray() {
    if (marker != "") {
        marker = "nothing behind: " marker
        begin()
        kind = "stray"
        end()
    }
}
function end() {
    if (kind != "") {
        close(name ".how")
        close(name ".place")
        close(name ".text")
    }
    kind = ""
}
kind == "fence" {
    if (/^(```|~~~)/) end()
    else print > (name ".text")
    next
}
/^(```|~~~)/ { end(); begin(); kind = "fence"; next }
kind == "table" && /^\|/ { print > (name ".text"); next }
/^<!-- .* -->$/ {
    end()
    stray()
    marker = substr($0, 6, length($0) - 9)
    empty = 1
    next
}
/^    / && (kind == "indented" || empty) {
    if (kind != "indented") { end(); begin(); kind = "indented" }
    print gap substr($0, 5) > (name ".text")
    gap = ""
    next
}
/^$/ {
    if (kind == "indented") gap = gap "\n"
    empty = 1
    next
}
{
    end()
    if (marker ~ /^judged/ && /^\|/) {
        begin()
        kind = "table"
        print > (name ".text")
    }
    stray()
    empty = 0
}
END { end(); stray() }
