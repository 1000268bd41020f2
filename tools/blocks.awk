# Finds the commands of a document and what they print: awk -v to=FOLDER -f tools/blocks.awk DOCUMENT
#
# A block is lines with four spaces before them. One with a line that begins with a command is a command block; it goes to
# FOLDER/N.sh, N counting them from 001. Where the next block follows at once, or behind a text that ends in a colon or
# says `prints`, it is the block's output and goes to FOLDER/N.out. A paragraph that ends in a command between backquotes,
# with a word or two behind it, is a command block too, and the block below is its output. What isn't run: a block with a
# word in capitals outside of a here-document, such as IMAGE, one with a line `# not run`, and one that calls what stands in
# lib/, which lib/run-tests runs. Lines that begin with `run-dix: ` are what the wrapper says on standard error, and no output.

function is_command(line) {
    return line ~ /^(\.\/run-dix|\.\/run-dixlab|printf|sed|grep|tr|expand|dd|for|cp|cat|echo|cmp|od|head|tail|rm|LC_ALL=C) / ||
        line ~ /^[a-z]+=\$\(/
}

# A text without its here-documents.
function outside(text, lines, n, i, end, out) {
    n = split(text, lines, "\n")
    for (i = 1; i <= n; i++) {
        if (end != "") {
            if (lines[i] == end) end = ""
            continue
        }
        if (match(lines[i], /<<-?[ ]*'?[A-Za-z]+'?/)) {
            end = substr(lines[i], RSTART + 2, RLENGTH - 2)
            gsub(/[- ']/, "", end)
            sub(/<<-?[ ]*'?[A-Za-z]+'?/, "", lines[i])
        }
        out = out lines[i] "\n"
    }
    return out
}

function is_form(text, words, n, i) {
    if (text ~ /(^|\n)(# not run|lib\/)/) return 1
    n = split(outside(text), words, /[ \n<>&|;]+/)
    for (i = 1; i <= n; i++) if (words[i] ~ /^[A-Z][A-Z_:.]+$|^[A-Z]$/) return 1
    return 0
}

function take(text) {
    file = sprintf("%s/%03d", to, ++count)
    printf "%s", text >(file ".sh")
    close(file ".sh")
}

function give(text, lines, n, i) {
    n = split(text, lines, "\n")
    for (i = 1; i < n; i++) if (lines[i] !~ /^run-dix: /) printf "%s\n", lines[i] >(file ".out")
    close(file ".out")
}

# The command that the paragraph ends in, if it does.
function inline(paragraph, at, rest, command) {
    if (!match(paragraph, /`\.\/run-dix [^`]*`[^`]?[^`]?[^`]?[^`]?[^`]?[^`]?[^`]?[^`]?[^`]?[^`]?[^`]?[^`]?$/)) return ""
    command = substr(paragraph, RSTART + 1)
    return substr(command, 1, index(command, "`") - 1)
}

function block_ends(command) {
    if (is_commands) {
        waits = !is_form(block)
        if (waits) take(block)
    } else if (waits && (last == "" || last ~ /:$/ || last ~ /prints/)) {
        give(block)
        waits = 0
    } else if ((command = inline(last)) != "" && !is_form(command)) {
        take(command "\n")
        give(block)
        waits = 0
    } else {
        waits = 0
    }
    block = last = ""
    is_commands = 0
}

/^    / {
    block = block substr($0, 5) "\n"
    if (is_command(substr($0, 5))) is_commands = 1
    next
}
block != "" { block_ends() }
/^#/ { waits = 0 }
NF { last = $0 }
END { if (block != "") block_ends() }
