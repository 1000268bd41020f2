# Measures a scrub of an image of 8 units of 65,536 blocks, and dixlab check of a dump of as many, beside what they need: one
# pass over the file and the guards of its data. The files are in memory.
. bench/files.sh
rounds=${1:-9}
library needed
"$DIX" format "$image" 1:65536 1:65536 1:65536 1:65536 1:65536 1:65536 1:65536 1:65536 >/dev/null
guards=$("$work/needed" 524288)
cat "$image" >/dev/null
"$DIXLAB" export "$image" 0 interleaved >"$place/unit"
for i in 1 2 3 4 5 6 7 8; do cat "$place/unit"; done >"$place/dump"
# As units of type 3, since the addresses begin again eight times.
check_dump() { "$DIXLAB" check --type 3 <"$place/dump"; }
for i in $(seq "$rounds"); do
    printf 'dix scrub\t%s\n' "$(timed "$DIX" scrub "$image")"
    printf 'cat\t%s\n' "$(timed cat "$image")"
    printf 'dd bs=520\t%s\n' "$(timed dd if="$image" of=/dev/null bs=520)"
    printf 'dixlab check\t%s\n' "$(timed check_dump)"
    printf 'cat of the dump\t%s\n' "$(timed cat "$place/dump")"
done >"$place/rounds"
table <"$place/rounds"
needed=$(($(median_of cat) + guards))
echo
echo "crc16 of 524,288 blocks $guards us; needed work $needed us; a scrub takes $(ratio "$(median_of 'dix scrub')" "$needed") of it, and $(ratio "$(median_of 'dix scrub')" "$(median_of 'dd bs=520')") of dd bs=520"
needed=$(($(median_of 'cat of the dump') + guards))
echo "needed work of a check $needed us; dixlab check takes $(ratio "$(median_of 'dixlab check')" "$needed") of it"
if command -v strace >/dev/null; then
    strace -c -f -o "$place/calls" "$DIX" scrub "$image" >/dev/null
    awk '$NF ~ /^(pread64|read|lseek|write)$/ { printf "%s %s calls; ", $NF, $4 } END { print "by strace" }' "$place/calls"
fi
