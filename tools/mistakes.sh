# Names the mistakes of a call on standard error, in front of what the program says of them: which word is wrong, and what
# is the matter with an image. It is read by tools/wrapper.sh. Nothing here decides anything: the program judges words and
# image itself, and its text and status are its own.

# Numbers as both grammars have them, of any length.
is_number() {
    case $1 in
    0) ;;
    '' | 0* | *[!0-9]*) return 1 ;;
    esac
}
is_at_most() {
    is_number "$1" || return
    [ ${#1} -lt ${#2} ] || { [ ${#1} = ${#2} ] && expr "x$1" '<=' "x$2" >/dev/null; }
}
is_within() { is_at_most "$1" "$3" && { [ ${#1} -gt ${#2} ] || ! is_at_most "$1" "$2" || [ "$1" = "$2" ]; }; }

wrong() { say "$*"; }
units_form='T:BLOCKS or T:BLOCKS:SIZE:FIRST'

# A word of a unit: what is wrong with it first.
judge_unit() {
    case $1 in
    *::* | :* | *: | *:*:*:*:*) wrong "$1 is no word $units_form, as 1:64 or 1:64:512:1000" && return ;;
    esac
    word=$1 old=$IFS IFS=:
    set -f
    # (the parts of a word)
    # shellcheck disable=SC2086
    set -- $1
    set +f
    IFS=$old
    most=65536
    [ "$3" != 4096 ] || most=8192
    if [ $# != 2 ] && [ $# != 4 ]; then
        wrong "$word is no word $units_form, as 1:64 or 1:64:512:1000"
    elif ! is_within "$1" 0 3; then
        wrong "$word: T, the protection type, is 0 to 3"
    elif [ $# = 4 ] && [ "$3" != 512 ] && [ "$3" != 4096 ]; then
        wrong "$word: SIZE is 512 or 4096, that of the data without tuples"
    elif ! is_within "$2" 1 $most; then
        wrong "$word: BLOCKS is 1 to $most for blocks of ${3:-512} bytes"
    elif [ $# = 4 ] && ! is_at_most "$4" "$(((9223372036854775807 - $2) + 1))"; then
        wrong "$word: FIRST is a number, with BLOCKS at most 2^63"
    fi
}
judge_units() {
    if [ $# = 0 ]; then
        wrong "a word $units_form is missing, as 1:64"
    elif [ $# -gt 8 ]; then
        wrong "an image has 8 units at most, and these are $#"
    else
        for it; do judge_unit "$it"; done
    fi
}

# The name of an image.
judge_image() {
    case $2 in
    '') wrong "$1 wants the name of an image behind it" ;;
    --unproved | --force | --help | --version)
        wrong "$2 stands in front of $1: $call $2 $1 .."
        is_misplaced=1
        ;;
    -*) wrong "the name of an image may not begin with -: ./$2 names the same file" ;;
    esac
}

is_image() { { [ -f "$1" ] || [ -b "$1" ]; } && [ "$(head -c 6 -- "$1" 2>/dev/null | tr -d '\0')" = DIXIMG ]; }

# Words behind the last that a command takes: WANTED WORDS..
judge_rest() {
    wanted=$1
    shift
    [ $# -gt "$wanted" ] || return 0
    command=$1 image=$2 taken=
    while [ "$wanted" -gt 0 ]; do
        taken="$taken $1" wanted=$((wanted - 1))
        shift
    done
    if takes_script "$command" "$image" && is_image "$1" && [ -f "$image" ] && ! is_image "$image"; then
        wrong "$image is no image; the image comes first, and the script on standard input: $call $command $1 < $image"
    elif takes_script "$command" "$image" && [ -f "$1" ]; then
        wrong "$1 is a word too many; what $command reads comes on standard input: $call$taken < $1"
    else
        wrong "$1 is a word too many behind $command"
    fi
}

# What is the matter with the images of a call.
look_at_images() {
    images_of "$@" | while IFS= read -r it; do look_at_image "$it"; done
    for it in 1 2; do
        image=$(images_of "$@" | sed -n "${it}p")
        if [ -n "$image" ] && [ -e "$image" ] && [ ! -d "$image" ] && [ ! -f "$image" ] && [ ! -b "$image" ]; then
            refuse 64 "$image is no plain file and no block device, so it can't hold an image"
        fi
    done
    image=$(image_written "$@")
    if [ -f "$image" ] && [ ! -w "$image" ]; then say "the image can't be written: $image"; fi
    look_at_folder "$@"
}

# The system's word for what keeps a file from being read.
word_for() {
    came=$({ : <"$1"; } 2>&1) || echo "${came##*: }"
}

look_at_image() {
    if [ ! -e "$1" ]; then
        folder=$(dirname -- "$1")
        if [ -d "$folder" ]; then
            say "there is no file $1; $dix format $1 1:64 makes an image of 64 blocks"
        else
            say "there is no folder $folder"
        fi
    elif [ -d "$1" ]; then
        say "$1 is a folder, and an image is a file"
    elif [ -f "$1" ] && [ ! -r "$1" ]; then
        say "$1 can't be read: $(word_for "$1")"
    elif [ -f "$1" ]; then
        look_at_head "$1"
    fi
}

# The length that a header tells, a sign that it tells none, or nothing where it is no header.
told_length() {
    head -c 512 -- "$1" | od -An -v -tu1 | awk '{ for (i = 1; i <= NF; i++) b[n++] = $i }
    function number(at, i, sum) {
        for (i = 0; i < 8; i++) sum = sum * 256 + b[at + i]
        return sum
    }
    END {
        head = "68 73 88 73 77 71 48 "
        for (i = 0; i < 7; i++) came = came b[i] " "
        if (n < 8 || came != head || b[7] < 49 || b[7] > 50) exit
        units = b[8] * 256 + b[9]
        if (n < 512) { print 512; exit }
        if (units < 1 || units > 8) { print "-"; exit }
        for (u = 0; u < units; u++) {
            at = 16 + u * (b[7] == 49 ? 16 : 32)
            size = b[7] == 49 || b[at + 1] == 9 ? 512 : b[at + 1] == 12 ? 4096 : 0
            if (b[at] > 3 || !size || !number(at + 8)) { print "-"; exit }
            all += number(at + 8) * (b[at] ? size + 8 : size)
        }
        printf "%.0f\n", 512 + all
    }'
}
look_at_head() {
    told=$(told_length "$1")
    size=$(wc -c <"$1")
    if [ -z "$told" ]; then
        say "$1 is no image, as it doesn't begin with DIXIMG01 or DIXIMG02; $dix format makes one, and" \
            'docs/DUMPS.md says how a dump becomes one'
    elif [ "$told" = - ]; then
        say "the header of $1 is damaged"
    elif [ "$told" -gt "$size" ]; then
        say "$1 is cut short: it has $((size)) bytes of $told"
    elif [ "$told" -lt "$size" ]; then
        say "$1 has $((size)) bytes, and its header tells $told"
    fi
}

# Of a format: the folder that the image is to stand in.
look_at_folder() {
    [ "$1" = format ] && [ -n "$2" ] || return 0
    folder=$(dirname -- "$2")
    if [ -d "$2" ]; then
        say "$2 is a folder, and an image is a file"
    elif [ ! -d "$folder" ]; then
        say "there is no folder $folder"
    elif [ ! -e "$2" ] && [ ! -w "$folder" ]; then
        say "no file can be made in the folder $folder"
    fi
}
