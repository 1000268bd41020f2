# Counts the calls of the system by which 1,024 lines of `show`, each of 64 bytes, go to standard output.
. bench/files.sh
"$DIX" format "$image" 1:4 >/dev/null
awk 'BEGIN {
    print "dix 1\nmode crc on on 1\nlimits 16 16 16\npages 1\nlinear 0 4 dev 0 at 0\nbegin"
    for (i = 0; i < 1024; i++) print "show 0:0:64"
}' >"$place/script"
if command -v strace >/dev/null; then
    strace -c -f -e trace=write -o "$place/calls" "$DIX" run "$image" <"$place/script" >"$place/text"
    awk -v bytes="$(wc -c <"$place/text")" '$NF == "write" { printf "%d bytes of text in %d calls of write\n", bytes, $4 }' "$place/calls"
else
    echo 'not measured, as there is no strace'
fi
