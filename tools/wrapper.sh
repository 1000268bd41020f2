# What run-dix and run-dixlab share. Both read it behind what they say of their own: `called` and `crate`, those of the
# program; `first`, words by which the program is run once it is built, and `slow` and `slow_text`, a call of it that takes
# long; `given`, a program to run in place of the proved one; `help`, `takes_script`, `images_of`, `image_written`,
# `judge_words`, `own_option` and `look_first`.
#
# In a folder with programs/, as install-programs and dist make it, the programs there are run, and nothing is built.
me=$(basename -- "$0")
case $me in
run-dix | run-dixlab) call="./$me" dix=./run-dix lab=./run-dixlab ;;
*) call=$me dix=dix lab=dixlab ;;
esac
is_ready=
program="$here/crates/$crate/out/$crate"
if [ -e "$here/programs/$crate" ]; then is_ready=1 program="$here/programs/$crate"; fi
. "$here/tools/mistakes.sh"

say() { echo "$me: $*" >&2; }
refuse() {
    status=$1
    shift
    say "$@"
    exit "$status"
}

version() {
    commit=$(cat "$here/programs/commit" 2>/dev/null) || commit=$(git -C "$here" describe --always --dirty 2>/dev/null) ||
        commit=unknown
    kit=$(cat "$here/programs/kit" 2>/dev/null) || kit=$(rt version 2>/dev/null) || kit='none (there is no rt)'
    built='not built yet'
    if is_fresh; then built='built'; fi
    # (the kit's line names the processor where it isn't the kit's own choice)
    if grep -q ' cpu=' "$(dirname -- "$program")/verdict" 2>/dev/null; then
        built="$built for $(sed -n 's/.* cpu=\([^ ]*\).*/\1/p' "$(dirname -- "$program")/verdict")"
    fi
    if [ -n "$is_ready" ]; then built="built, as $here/programs/verdicts says"; fi
    echo "$called $(cat "$here/VERSION"), commit $commit; proved program: $built; kit: $kit"
}

# Whether the program is built for the processor that DIX_CPU names; the kit's line names none for its own choice.
is_for_cpu() {
    [ -n "$DIX_CPU" ] && [ -z "$is_ready" ] && [ -z "$is_unproved" ] || return 0
    case $DIX_CPU in
    x86-64-v2) ! grep -q ' cpu=' "$(dirname -- "$program")/verdict" 2>/dev/null ;;
    *) grep -q " cpu=$DIX_CPU " "$(dirname -- "$program")/verdict" 2>/dev/null ;;
    esac
}

# The program is kept with the time at which its build began, so that an edit during a build counts too.
is_fresh() {
    [ -x "$program" ] && is_for_cpu || return
    [ -n "$is_ready" ] || [ -z "$(find "$here/crates" "$here/crates.txt" -name out -prune -o \
        \( -name '*.rt' -o -name '*.antt' -o -name crates.txt \) -newer "$program" -print | head -n 1)" ]
}

want_rt() {
    command -v rt >/dev/null && return
    say "there is no command rt: $called is proved and built by the Rattle kit. Put the folder of its rt into PATH;"
    refuse 69 'rt doc then prints the path of the page START-HERE.md, which describes the kit.'
}

# Runs a command that ends when the script is told to. (A command behind & has lost its standard input.)
held() {
    { "$@" <&3 3<&- & } 3<&0
    held=$!
    wait $held
    status=$?
    held=
    return $status
}

# Ends with this status, and leaves nothing that runs, nor half of a file.
end() {
    trap '' INT TERM HUP
    [ -z "$held" ] || kill -TERM "$held" 2>/dev/null
    if [ -n "$work" ]; then
        stop_crates
        end_kit
    fi
    wait
    [ -z "$work" ] || rm -rf "$work"
    [ "$1" -lt 128 ] || rm -f "$log"
    exit "$1"
}
stop_crates() { :; }

# Ends what the kit started for this build: its compiler has a session of its own. It is told by its environment, or by
# the folder that it runs in.
end_kit() {
    [ -z "$held" ] || kill -TERM "$held" 2>/dev/null
    for _ in 1 2 3 4 5 6 7 8 9 10; do
        [ -n "$(of_kit)" ] || return 0
        sleep 0.1
    done
    for it in $(of_kit); do kill -KILL "$it" 2>/dev/null; done
}
of_kit() {
    # (links of numbers have no odd names)
    # shellcheck disable=SC2010
    {
        grep -lF -- "DIX_BUILD=$work" /proc/[0-9]*/environ
        ls -l /proc/[0-9]*/cwd | grep -F -- "-> $work" | grep -o '/proc/[0-9]*'
    } 2>/dev/null | sed 's,/proc/\([0-9]*\).*,\1,' | sort -u
}

can_run() {
    case $1 in
    */*) [ -f "$1" ] && [ -x "$1" ] ;;
    *) command -v "$1" >/dev/null ;;
    esac
}

# Settles which program is run, and builds it where it must.
choose_program() {
    if [ -n "$given" ]; then
        program=$given
        can_run "$program" || refuse 64 "$program is named in place of $called, and is no program"
        [ -z "$is_unproved" ] || say "UNPROVED: nothing says that $program was proved"
    elif [ -n "$is_unproved" ]; then
        [ -z "$is_ready" ] || refuse 64 'there are no sources here that could be built without proofs'
        . "$here/tools/unproved.sh"
        program="$kept/$crate"
        is_fresh || { want_rt && build_unproved; }
        say "UNPROVED: this $called was built without proofs"
    elif ! is_fresh; then
        [ -z "$is_misplaced" ] || refuse 64 'nothing is proved and built for such words'
        want_rt
        . "$here/tools/build.sh"
        build
    fi
}

# A call that writes an image holds it until it ends, as the program inherits the lock.
hold_image() {
    image=$(image_written "$@")
    [ -n "$image" ] && [ -r "$image" ] && { [ -f "$image" ] || [ -b "$image" ]; } || return 0
    command -v flock >/dev/null || return 0
    exec 8<"$image"
    flock -n 8
    # (another status tells that this file can't be locked)
    [ $? != 1 ] || refuse 64 "another call writes $image: try again once it has ended"
}

held='' work='' log='' is_misplaced='' is_unproved=${DIX_UNPROVED:+1}
trap 'end 129' HUP
trap 'end 130' INT
trap 'end 143' TERM
while :; do
    case $1 in
    --help) help && exit 0 ;;
    --version) version && exit 0 ;;
    --unproved) is_unproved=1 ;;
    -*) own_option "$1" || refuse 64 "there is no option $1: $call --help lists all" ;;
    *) break ;;
    esac
    shift
done
if [ $# = 0 ]; then
    help >&2
    exit 64
fi
look_first "$@"
judge_words "$@"
look_at_images "$@"
if takes_script "$@" && [ -t 0 ]; then
    say 'reads from the terminal: Ctrl-D ends the text, and < FILE gives one'
fi
# A write past the shell's limit on file sizes then fails, and ends nothing.
trap '' XFSZ
choose_program "$@"
hold_image "$@"
if [ -t 2 ] && [ -d "/proc/$$/fd" ]; then
    . "$here/tools/watch.sh"
    run_watched "$@"
fi
trap - INT TERM HUP
exec "$program" "$@"
