# Measures scripts on a mirror of 1,024 blocks, with its repair, which reads both legs, beside the same script in a run on
# one leg, and beside such a run on each leg. Times are those of the processor.
. bench/files.sh
rounds=${1:-40}

# A script that writes 1,024 blocks in so many requests and then reads them, with this limit on blocks, over so many legs.
script() {
    awk -v requests="$1" -v limit="$2" -v legs="$3" 'BEGIN {
        blocks = 1024 / requests
        print "dix 1\nmode crc on on 1\nlimits " limit " " limit " 16\npages 128"
        for (leg = 0; leg < legs; leg++) print "linear " leg * 1024 " 1024 dev " leg " at 0"
        print "begin"
        for (way = 0; way < 2; way++)
            for (i = 0; i < requests; i++) {
                list = ""
                left = blocks * 512
                for (at = i * blocks * 512; left > 0; at += len) {
                    len = 4096 - at % 4096
                    if (len > left) len = left
                    list = list (list ? "," : "") int(at / 4096) ":" at % 4096 ":" len
                    left -= len
                }
                print (way ? "read " : "write ") i * blocks " " blocks " " list
            }
    }'
}
call() { "$DIX" "$1" "$image" <"$2"; }
"$DIX" format "$image" 1:1024 1:1024 >/dev/null
echo '| Limit | Requests each way | `run`, ms | `mirror`, ms | Ratio | To a run on each leg |'
echo '|---|---|---|---|---|---|'
for limit in 16 64 256 1024; do
    for requests in 1 8 64 512; do
        script $requests $limit 1 >"$work/plain"
        script $requests $limit 2 >"$work/mirror"
        plain=$(spent "$rounds" call run "$work/plain")
        mirror=$(spent "$rounds" call mirror "$work/mirror")
        awk -v limit=$limit -v requests=$requests -v a="$plain" -v b="$mirror" \
            'BEGIN { printf "| %d | %d | %.1f | %.1f | %.2f | %.2f |\n", limit, requests, a / 1000, b / 1000, b / a, b / a / 2 }'
    done
done
