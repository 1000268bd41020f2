# Measures dixlab. On a unit of 65,536 blocks of 512 bytes: a dump out and in beside cat of as many bytes into a file that is
# there, blocks shown and compared beside a scrub of them, and what the commands of a script come to, in vectors and in words,
# beside its trace. And all flips of a script of one block, and of two. The needed work is that of bench/blocks.c. The files are
# in memory.
. bench/files.sh
rounds=${1:-21}
compile bench/blocks.c -o "$place/blocks"
"$DIX" format "$image" 1:65536 >/dev/null
"$DIX" format "$place/other" 1:65536 >/dev/null
export_of() { "$DIXLAB" export "$image" 0 "$1" >"$place/dump.$1"; }
import_of() { "$DIXLAB" import "$image" 0 "$1" <"$place/dump.$1"; }
copy_of() { cat "$place/dump.$1" >"$place/copy"; }
show_all() { "$DIXLAB" show "$image" 0 >"$place/text"; }
trace_of() { "$DIX" trace "$image" <"$place/script" >"$place/text"; }
vectors_of() { "$DIXLAB" vectors "$image" <"$place/script" >"$place/text"; }
explain_of() { "$DIXLAB" explain "$image" <"$place/script" >"$place/text"; }
# A script that writes so many blocks and reads them back.
pair() {
    printf '%s\n' 'dix 1' 'mode crc on on 1' 'limits 64 16 16' 'pages 2' 'linear 0 4 dev 0 at 8' begin 'fill 0:0:512 a5' \
        "write 0 $1 0:0:$((512 * $1))" "read 0 $1 1:0:$((512 * $1))"
}
sweep_of() { "$DIXLAB" sweep 01 1:16 <"$place/$1" >"$place/text" || [ $? = 1 ]; }
needed() { "$place/blocks" "$1" "$image" "$place/other" >"$place/text"; }
diff_all() { "$DIXLAB" diff "$image" 0 "$place/other" 0 >"$place/text"; }
spread 512 16 >"$place/script"
pair 1 >"$place/one"
pair 2 >"$place/two"
for layout in interleaved plain tuples; do export_of $layout; copy_of $layout; done
for i in $(seq "$rounds"); do
    for layout in interleaved plain tuples; do
        printf 'cat, %s\t%s\n' "$layout" "$(timed copy_of $layout)"
        printf 'export, %s\t%s\n' "$layout" "$(timed export_of $layout)"
        printf 'import, %s\t%s\n' "$layout" "$(timed import_of $layout)"
    done
    printf 'dix scrub\t%s\n' "$(timed "$DIX" scrub "$image")"
    printf 'show\t%s\n' "$(timed show_all)"
    printf 'diff\t%s\n' "$(timed diff_all)"
    printf 'needed for interleaved\t%s\n' "$(timed needed copy)"
    printf 'needed for tuples\t%s\n' "$(timed needed tuples)"
    printf 'needed for show, without guards\t%s\n' "$(timed needed show)"
    printf 'needed for diff\t%s\n' "$(timed needed diff)"
    printf 'dix trace\t%s\n' "$(timed trace_of)"
    printf 'vectors\t%s\n' "$(timed vectors_of)"
    printf 'explain\t%s\n' "$(timed explain_of)"
    printf 'sweep of 3,120 runs\t%s\n' "$(timed sweep_of one)"
    printf 'sweep of 6,240 runs\t%s\n' "$(timed sweep_of two)"
done >"$place/rounds"
table <"$place/rounds"
echo
# The least of the rounds of one name by that of another.
beside() { echo "$1 takes $(ratio "$(least_of "$1")" "$(least_of "$2")") times $2"; }
for layout in interleaved plain tuples; do
    beside "export, $layout" "cat, $layout"
    beside "import, $layout" "cat, $layout"
done
beside show 'dix scrub'
beside diff 'dix scrub'
beside 'export, interleaved' 'needed for interleaved'
beside 'export, tuples' 'needed for tuples'
beside show 'needed for show, without guards'
beside diff 'needed for diff'
beside vectors 'dix trace'
beside explain 'dix trace'
beside 'sweep of 6,240 runs' 'sweep of 3,120 runs'
for words in 'show' 'export' 'import' 'diff'; do
    case $words in
    show) set -- show "$image" 0 ;;
    export) set -- export "$image" 0 plain ;;
    import) set -- import "$image" 0 plain ;;
    diff) set -- diff "$image" 0 "$place/other" 0 ;;
    esac
    /usr/bin/time -f "$words: %M KiB at most" "$DIXLAB" "$@" 2>&1 >"$place/text" <"$place/dump.plain"
done
for words in 'trace' 'vectors' 'explain'; do
    program=$DIXLAB
    [ "$words" != trace ] || program=$DIX
    /usr/bin/time -f "$words: %M KiB at most" "$program" "$words" "$image" 2>&1 >"$place/text" <"$place/script"
done
for script in one two; do
    /usr/bin/time -q -f "sweep, $script: %M KiB at most" "$DIXLAB" sweep 01 1:16 2>&1 >"$place/text" <"$place/$script" || [ $? = 1 ]
done
/usr/bin/time -f 'without a command: %M KiB at most' "$DIXLAB" --version 2>&1 >/dev/null
