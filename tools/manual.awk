# Makes the body of a manual page of a document: awk -v from=HEADING -v to=HEADING -f tools/manual.awk DOCUMENT
#
# What stands behind the heading `from`, or from the front, up to the heading `to`, or to the end. Headings become sections,
# paragraphs, lists, tables and blocks what they are in a page, and of a link its text is left.

function plain(text) {
    gsub(/\\/, "\\e", text)
    gsub(/-/, "\\-", text)
    return text
}

# A text with its words between backquotes and stars, and its links.
function styled(text, out, at, part, rest) {
    gsub(/!\[[^]]*\]\([^)]*\)/, "", text)
    while (match(text, /\[[^]]*\]\([^)]*\)/)) {
        part = substr(text, RSTART + 1, RLENGTH - 1)
        sub(/\].*/, "", part)
        text = substr(text, 1, RSTART - 1) part substr(text, RSTART + RLENGTH)
    }
    out = ""
    while (match(text, /`[^`]*`|\*\*[^*]*\*\*|\*[A-Za-z][^*]*\*/)) {
        part = substr(text, RSTART, RLENGTH)
        out = out plain(substr(text, 1, RSTART - 1))
        text = substr(text, RSTART + RLENGTH)
        if (part ~ /^`/) out = out "\\fB" plain(substr(part, 2, length(part) - 2)) "\\fP"
        else if (part ~ /^\*\*/) out = out "\\fB" plain(substr(part, 3, length(part) - 4)) "\\fP"
        else out = out "\\fI" plain(substr(part, 2, length(part) - 2)) "\\fP"
    }
    return out plain(text)
}
function line(text) { return (text ~ /^[.']/ ? "\\&" : "") text }

# Rows of a table are kept until its end, as the width of its columns is that of their longest cell.
function end_table(i, j, form) {
    if (!rows) return
    print ".PP\n.TS\nallbox;"
    for (j = 1; j <= columns; j++) form = form (wide[j] > 22 ? "lx " : "l ")
    print form "."
    for (i = 1; i <= rows; i++)
        for (j = 1; j <= columns; j++)
            printf "T{\n%s\nT}%s", line(styled(cell[i, j])), j < columns ? "\t" : "\n"
    print ".TE"
    rows = columns = 0
    split("", wide)
}
function add_row(text, parts, n, j) {
    gsub(/\\\|/, "\001", text)
    sub(/^\| */, "", text)
    sub(/ *\|$/, "", text)
    if (text ~ /^[-:| ]+$/ && text ~ /-/) return
    n = split(text, parts, / *\| */)
    rows++
    for (j = 1; j <= n; j++) {
        gsub("\001", "|", parts[j])
        cell[rows, j] = parts[j]
        if (length(parts[j]) > wide[j]) wide[j] = length(parts[j])
    }
    if (n > columns) columns = n
}
function end_block() {
    if (is_block) print ".fi\n.RE"
    is_block = 0
}

BEGIN { is_on = from == "" }
/^#/ {
    end_table()
    end_block()
    text = $0
    depth = match(text, /[^#]/) - 1
    sub(/^#+ */, "", text)
    if (to != "" && text == to) is_on = 0
    if (is_on && depth > 1) print (depth == 2 ? ".SH " toupper(styled(text)) : ".SS " styled(text))
    else if (is_on && seen) print ".SH " toupper(styled(text))
    seen = 1
    if (from != "" && text == from) is_on = found = 1
    next
}
!is_on { next }
/^    / && !is_item {
    end_table()
    if (!is_block) print ".PP\n.RS 4\n.nf"
    is_block = 1
    print line(plain(substr($0, 5)))
    next
}
{ end_block() }
/^\|/ { add_row($0); next }
{ end_table() }
/^ *- / {
    sub(/^ *- /, "")
    print ".IP \\(bu 2\n" line(styled($0))
    next
}
/^[0-9]+\. / {
    number = $1
    sub(/^[0-9]+\. /, "")
    print ".IP " number " 4\n" line(styled($0))
    next
}
NF && styled($0) != "" { print ".PP\n" line(styled($0)) }
END {
    end_table()
    end_block()
    if (from != "" && !found) exit 1
}
