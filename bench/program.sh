# Measures runs of scripts on an image in a file beside what they need, one pass over the file each way and the guards of
# the data, and beside dd, which moves the same blocks in and out in pieces of a block. The file is in memory.
. bench/files.sh
rounds=${1:-21}
library needed

# A script of so many writes and then as many reads, each of so many blocks over whole pages.
script() {
    awk -v requests="$1" -v blocks="$2" 'BEGIN {
        pages = blocks / 8
        for (p = 0; p < pages; p++) list = list (p ? "," : "") p ":0:4096"
        print "dix 1\nmode crc on on 1\nlimits 1024 1024 16\npages " pages "\nlinear 0 8192 dev 0 at 0\nbegin"
        for (way = 0; way < 2; way++)
            for (i = 0; i < requests; i++) print (way ? "read " : "write ") i * blocks " " blocks " " list
    }'
}

run() { "$DIX" run "$image" <"$1"; }
moved() {
    dd if="$image" of="$place/blocks" bs=520 count="$1"
    dd if="$place/blocks" of="$image" bs=520 conv=notrunc
}
passed() {
    dd if="$image" of="$place/blocks" bs=1M
    dd if="$place/blocks" of="$image" bs=1M conv=notrunc
}
script 4 2048 >"$place/large"
script 2 2048 >"$place/half"
spread 512 16 >"$place/small"
spread 256 16 >"$place/fewer"
printf '%s\n' 'dix 1' 'mode crc on on 1' 'limits 16 16 16' 'pages 1' 'linear 0 8192 dev 0 at 0' begin 'write 3 1 0:0:512' >"$place/one"
"$DIX" format "$image" 1:8192 >/dev/null
moved 8192 2>/dev/null
guards=$("$work/needed" 16384)
for i in $(seq "$rounds"); do
    printf '8 requests of 2,048 blocks\t%s\n' "$(timed run "$place/large")"
    printf '4 requests of 2,048 blocks\t%s\n' "$(timed run "$place/half")"
    printf '1,024 requests of 16 blocks\t%s\n' "$(timed run "$place/small")"
    printf '512 requests of 16 blocks\t%s\n' "$(timed run "$place/fewer")"
    printf 'dd bs=1M, out and in\t%s\n' "$(timed passed)"
    printf 'dd bs=520, 8,192 blocks out and in\t%s\n' "$(timed moved 8192)"
    printf 'dd bs=520, 4,096 blocks out and in\t%s\n' "$(timed moved 4096)"
    printf 'big 1024 7\t%s\n' "$(timed "$DIX" big 1024 7)"
done >"$place/rounds"
table <"$place/rounds"
large=$(median_of '8 requests of 2,048 blocks')
small=$(median_of '1,024 requests of 16 blocks')
needed=$(($(median_of 'dd bs=1M, out and in') + guards))
echo
echo "crc16 of 16,384 blocks $guards us; needed work $needed us; 8 requests take $(ratio "$large" "$needed") of it, and $(ratio "$large" "$(median_of 'dd bs=520, 8,192 blocks out and in')") of dd bs=520"
echo "twice the requests take $(ratio "$large" "$(median_of '4 requests of 2,048 blocks')") and $(ratio "$small" "$(median_of '512 requests of 16 blocks')") times as long"
echo "one block takes $(spent 200 run "$place/one") us of processor"
for name in large small; do
    /usr/bin/time -f "$name requests: %M KiB at most" "$DIX" run "$image" <"$place/$name" 2>&1 >/dev/null
done
/usr/bin/time -f 'without a run: %M KiB at most' "$DIX" modes 1 2>&1 >/dev/null
if command -v strace >/dev/null; then
    strace -c -f -o "$place/calls" "$DIX" run "$image" <"$place/large" >/dev/null
    awk '$NF ~ /^(pread64|pwrite64|read|lseek|write)$/ { printf "%s %s calls; ", $NF, $4 } END { print "by strace, 8 requests" }' "$place/calls"
fi
