# What the measurements over files share. The files lie in memory where the system has a place for such.

place=$work
[ ! -w /dev/shm ] || place=$(mktemp -d /dev/shm/dix.XXXXXX)
trap 'rm -rf "$work" "$place"' EXIT
image="$place/image"

now() { date +%s%N; }
# How many microseconds a call takes by the clock.
timed() {
    start=$(now)
    "$@" >/dev/null 2>&1
    end=$(now)
    echo $(((end - start) / 1000))
}

# The microseconds of processor, of a program and of the system for it, that each of so many calls takes.
spent() {
    calls=$1
    shift
    (
        for i in $(seq "$calls"); do "$@" >/dev/null; done
        times
    ) | tail -1 | awk -v n="$calls" '{
        for (i = 1; i <= 2; i++) { split($i, t, /[ms]/); all += t[1] * 60 + t[2] }
        printf "%d", all * 1000000 / n
    }'
}

# Of lines NAME MICROSECONDS the least, median and greatest of each name, in ms, as rows of a table, in the order in which
# the names come first.
table() {
    echo '| ms | least | median | greatest |'
    echo '|---|---|---|---|'
    awk -F '\t' '!($1 in n) { order[++names] = $1 }
    { at[$1, ++n[$1]] = $2 }
    END {
        for (i = 1; i <= names; i++) {
            name = order[i]
            m = n[name]
            for (j = 1; j <= m; j++) x[j] = at[name, j]
            for (j = 2; j <= m; j++) { v = x[j]; for (k = j - 1; k && x[k] > v; k--) x[k + 1] = x[k]; x[k + 1] = v }
            printf "| %s | %.2f | %.2f | %.2f |\n", name, x[1] / 1000, x[int((m + 1) / 2)] / 1000, x[m] / 1000
        }
    }'
}

# The median of the figures of standard input, one a line.
median() { sort -n | awk '{ x[NR] = $1 } END { print x[int((NR + 1) / 2)] }'; }

# The median in a file of rounds of what stands behind this name.
median_of() { awk -F '\t' -v name="$1" '$1 == name { print $2 }' "$place/rounds" | median; }

# The least of the same.
least_of() { awk -F '\t' -v name="$1" '$1 == name { print $2 }' "$place/rounds" | sort -n | head -1; }

ratio() { awk -v a="$1" -v b="$2" 'BEGIN { printf "%.2f", a / b }'; }

# A script of so many writes and then as many reads, each of so many blocks, over whole pages of its own as far as there are pages.
spread() {
    awk -v requests="$1" -v blocks="$2" 'BEGIN {
        pages = blocks / 8
        print "dix 1\nmode crc on on 1\nlimits 1024 1024 16\npages 256\nlinear 0 8192 dev 0 at 0\nbegin"
        for (way = 0; way < 2; way++)
            for (i = 0; i < requests; i++) {
                list = ""
                for (p = 0; p < pages; p++) list = list (p ? "," : "") (i * pages + p) % 256 ":0:4096"
                print (way ? "read " : "write ") i * blocks " " blocks " " list
            }
    }'
}
