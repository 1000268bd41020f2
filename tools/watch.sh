# Runs the program where somebody looks on at a terminal: says how far it is where it takes longer than two seconds, and
# behind its text what may be done about a mistake. It is read by tools/wrapper.sh. Elsewhere the wrapper becomes the
# program.

# Runs the program and ends as it did. A command behind & ignores interrupts, so it is told to end in another way too.
run_watched() {
    trap 'pass_on HUP' HUP
    trap 'pass_on INT' INT
    trap 'pass_on QUIT' QUIT
    trap 'pass_on TERM' TERM
    signal=
    if [ -e "/proc/$$/fd/0" ]; then
        { "$program" "$@" <&3 3<&- & } 3<&0
    else
        "$program" "$@" <&- &
    fi
    held=$!
    [ -z "$signal" ] || pass_on "$signal"
    watcher=
    # (who types a script knows what is waited for)
    if ! { takes_script "$@" && [ -t 0 ]; }; then
        watch_from_outside "$held" "$@" 8<&- &
        watcher=$!
    fi
    wait "$held" 2>/dev/null
    status=$?
    # (a signal ends the wait, and not yet the program)
    while kill -0 "$held" 2>/dev/null; do
        wait "$held" 2>/dev/null
        status=$?
    done
    if [ -n "$watcher" ]; then
        kill -TERM "$watcher" 2>/dev/null
        wait "$watcher" 2>/dev/null
    fi
    [ -z "$signal" ] || end_by "$signal"
    [ "$status" -le 128 ] || end_by $((status - 128))
    name_status "$status" "$@"
    exit "$status"
}

pass_on() {
    signal=$1
    kill -s "$1" "$held" 2>/dev/null
    kill -s TERM "$held" 2>/dev/null
}

# Ends this shell by a signal, as the program was ended.
end_by() {
    # (this shell needs no dump; where there is no such limit, one is left)
    # shellcheck disable=SC3045
    ulimit -c 0 2>/dev/null
    trap - HUP INT QUIT TERM
    kill "-$1" $$
    exit 70
}

# Says how far the program is: after two seconds, and then each time that as long has gone by, up to a minute.
watch_from_outside() {
    trap '' INT QUIT
    pid=$1 seconds=0 next=2
    shift
    # (a sleep that is left behind holds nothing)
    while sleep 1 >/dev/null 2>&1 && kill -0 "$pid" 2>/dev/null; do
        seconds=$((seconds + 1))
        [ "$seconds" -ge "$next" ] || continue
        next=$((seconds < 60 ? seconds * 2 : seconds + 60))
        say "$1 has taken $seconds s$(how_far "$pid" "$@")"
    done
}

# How far it is: of what is read from front to end the part that was read, or else what was read and written. (The program
# names the place of each read of an image, so the image's position stays 0.)
how_far() {
    case $2 in
    scrub) part "$(counted rchar "$1")" "$3" ;;
    import) part "$(awk '$1 == "pos:" { print $2 }' "/proc/$1/fdinfo/0")" "/proc/$1/fd/0" ;;
    sweep) all_runs "/proc/$1/fd/0" ;;
    *) false ;;
    esac 2>/dev/null || amounts "$1"
}
part() {
    [ -f "$2" ] && [ "$1" -gt 0 ] && size=$(wc -c <"$2") && [ "$size" -gt 0 ] || return
    echo ": $(($1 < size ? $1 * 100 / size : 100)) %"
}
# (A sweep writes nothing before its end.) A frame has 8 bytes more than a block.
all_runs() {
    [ -f "$1" ] || return
    frame=$(($(sed -n 's/^ *block *//p' "$1" | grep -x 4096 || echo 512) + 8))
    "$program" explain <"$1" | sed -n 's/^right ops .* blocks \([0-9]*\) .*/\1/p' |
        while read -r blocks; do echo ": it has $((blocks * 3 * frame)) runs in all"; done
}
counted() { sed -n "s/^$1: //p" "/proc/$2/io"; }
amounts() {
    [ -r "/proc/$1/io" ] || return 0
    echo ": $(($(counted rchar "$1") / 1000)) kB read, $(($(counted wchar "$1") / 1000)) kB written"
}

# What may be done about a status.
name_status() {
    case $1 in
    3) name_fault "$2" "$3" ;;
    4) name_place "$2" "$3" ;;
    5) name_files "$@" ;;
    6) say 'there was too little memory' ;;
    7) name_input ;;
    8) name_output ;;
    esac
}

# The file that is standard input, as one would name it here.
input_file() {
    file=$(readlink "/proc/$$/fd/0")
    [ -f "$file" ] && echo "${file#"$PWD"/}"
}

name_fault() {
    script=$(input_file) || script=SCRIPT
    case $1 in
    vectors | sweep) name_sent "$1" "$script" ;;
    run | trace) say_explain "$script" ;;
    mirror) say "$lab explain < $script marks it; what a mirror refuses besides stands in docs/MIRROR.md" ;;
    nvme) say 'docs/NVME.md says what is wrong with such a line' ;;
    import) say "a dump has a piece for each block of the place; $lab show $2 writes how many blocks there are" ;;
    esac
}

say_explain() { say "$lab explain < $1 marks it; $lab explain IMAGE < $1 also what doesn't fit an image"; }

# Of what takes a list too, and no script that alters anything on its way.
name_sent() {
    altering=$(grep -nE '^ *(fault|shift|overwrite) ' "$2" 2>/dev/null | head -n 1 | cut -d : -f 1)
    if grep -q '^ *dix vectors' "$2" 2>/dev/null; then
        say "$lab explain < $2 marks it; what an image refuses besides stands in docs/LAB.md"
    elif [ -n "$altering" ]; then
        say "$1 takes no script with a fault, shift or overwrite line, as line $altering of $2"
    else
        say_explain "$2"
    fi
}

# Who marks an entry of the volume that doesn't fit, or the units of the image.
name_place() {
    case $1 in
    run | trace | mirror | vectors)
        script=$(input_file) || script=SCRIPT
        say "$lab explain $2 < $script marks an entry of its volume that doesn't fit"
        ;;
    sweep)
        script=$(input_file) || script=SCRIPT
        say "$lab explain IMAGE < $script, over an image of these units, marks an entry of its volume that doesn't fit"
        ;;
    show | diff | export | import) say "$lab show $2 writes the units of $2: a place lies in one of them" ;;
    esac
}

# What the system says of the images.
name_files() {
    shift
    { images_of "$@"; image_written "$@"; } | sort -u | while IFS= read -r it; do
        [ -e "$it" ] || continue
        came=$({ : <"$it"; } 2>&1) || say "$it can't be read: ${came##*: }"
        came=$({ : >>"$it"; } 2>&1) || say "$it can't be written: ${came##*: }"
        name_room "$it"
    done
}
name_room() {
    [ "$(ulimit -f)" = unlimited ] || say "a file may have $(ulimit -f) times 512 bytes here (ulimit -f)"
    [ "$(df -Pk "$1" 2>/dev/null | awk 'NR == 2 { print $4 }')" != 0 ] || say "no room is left on the disk of $1"
}

name_input() {
    if [ -d "/proc/$$/fd/0" ]; then
        say 'standard input is a folder'
    elif [ ! -e "/proc/$$/fd/0" ]; then
        say 'standard input is closed'
    fi
}
name_output() {
    if [ ! -e "/proc/$$/fd/1" ]; then
        say 'standard output is closed'
        return
    fi
    file=$(readlink "/proc/$$/fd/1")
    if [ -p "/proc/$$/fd/1" ]; then
        say 'whoever read standard output has ended'
    elif [ -f "$file" ]; then
        say "standard output, $file, could not be written"
        name_room "$file"
    else
        say "standard output, $file, could not be written"
    fi
}
