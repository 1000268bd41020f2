# Proves and builds a program with all processors. It is read by tools/wrapper.sh, whose say, held and end it uses.
#
# rt works in one crate and those below it at a time, and a second rt waits. So each crate is built in a copy of the
# sources, its own folder out/ moved there and back, over the libraries of those that are done, which are linked. What is
# proved stays in the clone, so a build that was ended goes on where it was.
out="$here/crates/$crate/out"
log="$out/build.log"

# The crates below one in the order of crates.txt, each with those that its line names.
crates_below() {
    awk -v top="$1" '{ sub(/#.*/, "") }
    NF {
        at = index($0, ":")
        split(substr($0, 1, at - 1), words)
        order[++n] = words[1]
        uses[words[1]] = substr($0, at + 1)
    }
    END {
        wanted[top] = 1
        for (grows = 1; grows;) {
            grows = 0
            for (name in wanted) {
                m = split(uses[name], low)
                for (j = 1; j <= m; j++) if (low[j] in uses && !(low[j] in wanted)) grows = wanted[low[j]] = 1
            }
        }
        for (i = 1; i <= n; i++) if (order[i] in wanted && order[i] != top) {
            line = order[i]
            m = split(uses[line], low)
            for (j = 1; j <= m; j++) if (low[j] in wanted) line = line " " low[j]
            print line
        }
    }' "$here/crates.txt"
}

# Free memory in MiB, under the limit of the control group too.
free_memory() {
    # shellcheck disable=SC2046
    awk '/^MemAvailable:/ { free = $2 / 1024 }
    FILENAME ~ /memory.max/ && $1 != "max" { most = $1 / 1048576 }
    FILENAME ~ /memory.current/ { held = $1 / 1048576 }
    END { if (most && most - held < free) free = most - held; printf "%d\n", free }' \
        /proc/meminfo $(ls /sys/fs/cgroup/memory.max /sys/fs/cgroup/memory.current 2>/dev/null)
}

minutes() { echo $((($(date +%s) - begun) / 60)); }
tell() {
    say "$done of $all crates, $(minutes) min: $1"
    told=$(date +%s)
}

# Says what is built where nothing was said for a minute.
tell_waiting() {
    [ $(($(date +%s) - told)) -lt 60 ] || tell "builds $(cat "$work"/*/name 2>/dev/null | tr '\n' ' ')"
}

# The crates that wait for nothing but a processor.
ready() {
    awk 'FILENAME == ARGV[1] { done[$1] = 1; next }
    FILENAME == ARGV[2] { begun[$1] = 1; next }
    !($1 in begun) {
        for (i = 2; i <= NF; i++) if (!($i in done)) next
        print $1
    }' "$work/done" "$work/started" "$work/crates"
}

copy_sources() {
    mkdir "$1"
    (cd "$here" && tar cf - --exclude=out --exclude=must-fail --exclude=twins crates crates.txt HANDLES) | (cd "$1" && tar xf -)
}

# Links the libraries that are done into a copy.
link_libraries() {
    while read -r name; do
        if [ -d "$here/crates/$name/out/rlib" ] && [ ! -e "$1/crates/$name/out" ]; then
            mkdir "$1/crates/$name/out"
            cp -al "$here/crates/$name/out/rlib" "$1/crates/$name/out/" 2>/dev/null ||
                cp -a "$here/crates/$name/out/rlib" "$1/crates/$name/out/"
        fi
    done <"$work/done"
}

# Builds a crate in a copy, and ends with all that it started when it is told to.
build_crate() {
    trap 'kill -TERM $made 2>/dev/null; wait $made; exit 143' TERM
    cd "$1/crates/$2" || exit 2
    DIX_BUILD=$work rt lib --jobs "$3" </dev/null >"$1/said" 2>&1 &
    made=$!
    wait $made
    echo $? >"$1/ended.new"
    mv "$1/ended.new" "$1/ended"
}

start() {
    copy="$work/$1"
    [ -d "$copy" ] || copy_sources "$copy"
    link_libraries "$copy"
    [ ! -d "$here/crates/$2/out" ] || mv "$here/crates/$2/out" "$copy/crates/$2/out"
    echo "$2" >"$copy/name"
    (build_crate "$copy" "$2" "$3") &
    echo $! >"$copy/pid"
}

# Gives the clone back what a copy made of a crate.
put_back() {
    name=$(cat "$1/name")
    [ ! -d "$1/crates/$name/out" ] || [ -e "$here/crates/$name/out" ] || mv "$1/crates/$name/out" "$here/crates/$name/out"
    rm -f "$1/name" "$1/pid" "$1/ended"
}

# Keeps the line by which the kit says that a crate is proved, for whoever makes a package of it.
keep_verdict() {
    verdict=$(grep '^logic=proved ' "$1" | tail -n 1)
    [ -z "$verdict" ] || echo "$verdict" >"$2/verdict"
}

# Takes what the copy's crate came to: its words for the log, and whether it is done.
finish() {
    wait "$(cat "$1/pid")"
    status=$(cat "$1/ended")
    name=$(cat "$1/name")
    {
        echo "== $name"
        cat "$1/said"
    } >>"$log"
    put_back "$1"
    keep_verdict "$1/said" "$here/crates/$name/out"
    if [ "$status" != 0 ]; then
        failed=$name
    else
        echo "$name" >>"$work/done"
        done=$((done + 1))
        tell "$name"
    fi
}

# Ends all that runs, and gives back what was moved. It stands for the stop_crates of tools/wrapper.sh.
stop_crates() {
    for it in "$work"/*/pid; do
        [ ! -f "$it" ] || kill -TERM "$(cat "$it")" 2>/dev/null
    done
    wait
    for it in "$work"/*/name; do
        [ ! -f "$it" ] || put_back "${it%/name}"
    done
}

# How many jobs a crate gets where so many crates can be built: its share of the processors, but as many as memory allows
# where it is so large that those above it would wait for it alone.
jobs_for() {
    if [ "$(du -sb --exclude=out "$here/crates/$1" | cut -f 1)" -gt 600000 ]; then
        echo "$slots"
    else
        echo $((processors / ($2 < slots ? $2 : slots)))
    fi
}

# Starts crates while there are processors, memory and crates that are ready.
start_crates() {
    for slot in $(seq "$slots"); do
        [ ! -e "$work/$slot/name" ] || continue
        waiting=$(ready)
        next=$(echo "$waiting" | head -n 1)
        [ -n "$next" ] || return
        if [ "$running" -gt 0 ] && [ "$(free_memory)" -lt 3000 ]; then return; fi
        echo "$next" >>"$work/started"
        start "$slot" "$next" "$(jobs_for "$next" $((running + $(echo "$waiting" | wc -l))))"
        running=$((running + 1))
    done
}

finish_crates() {
    for it in "$work"/*/ended; do
        [ -f "$it" ] || continue
        finish "${it%/ended}"
        running=$((running - 1))
    done
}

build_crates() {
    : >"$work/done"
    : >"$work/started"
    all=$(($(wc -l <"$work/crates") + 1)) done=0 running=0 failed='' told=$(date +%s)
    while [ "$done" -lt "$((all - 1))" ]; do
        start_crates
        # (a circle in crates.txt, which rt names)
        [ "$running" -gt 0 ] || return 0
        sleep 1
        finish_crates
        [ -z "$failed" ] || return 1
        tell_waiting
    done
}

# Says how many crates the other program has too, and how many have a library, which is kept where nothing changed.
say_shared() {
    case $crate in
    lab_cli) other=dix_cli sharer=dix ;;
    *) other=lab_cli sharer=dixlab ;;
    esac
    shared=$(crates_below "$other" | cut -d ' ' -f 1 | grep -cxFf - "$work/names")
    kept=$(while read -r name; do [ ! -d "$here/crates/$name/out/rlib" ] || echo; done <"$work/names" | wc -l)
    say "$shared of its $(($(wc -l <"$work/names"))) crates are $sharer's too; $kept have a library already"
}

# Builds all, or says what failed and ends. A second call waits, and then finds the program.
build() {
    mkdir -p "$out" && exec 9>"$out/lock" || exit 70
    if command -v flock >/dev/null && ! flock -n 9; then
        say "waits for another $me that builds $called"
        held flock 9
    fi
    if ! is_fresh; then build_alone; fi
    exec 9>&-
}

build_alone() {
    rm -rf "$out"/build.*
    work=$(mktemp -d "$out/build.XXXXXX") && : >"$log" || end 70
    touch "$work/begun"
    crates_below "$crate" >"$work/crates"
    cut -d ' ' -f 1 "$work/crates" >"$work/names"
    begun=$(date +%s) processors=$(nproc) slots=$(($(free_memory) / 4000))
    slots=$((slots < 1 ? 1 : slots > processors ? processors : slots))
    say "proves and builds $called, $slots crates at a time, which can take an hour ($call --unproved doesn't); the log is $log"
    say_shared
    if build_crates && build_program; then
        touch -r "$work/begun" "$program"
        done=$all
        tell "$crate"
        rm -rf "$work" "$log"
        work=
    else
        tail -n 20 "$log" >&2
        say "the build failed${failed:+ at $failed}; all that was said is in $log"
        end 70
    fi
}

# The processor for which the compiler may write: that of this machine, or what DIX_CPU names. The proof is the same.
processor() {
    if [ -n "$DIX_CPU" ]; then
        echo "$DIX_CPU"
        return
    fi
    flags=$(sed -n 's/^flags[^:]*://p' /proc/cpuinfo 2>/dev/null | head -n 1)
    for it in avx2 bmi1 bmi2 f16c fma abm movbe; do
        case " $flags " in *" $it "*) ;; *) echo x86-64-v2 && return ;; esac
    done
    echo x86-64-v3
}

# With all libraries built, rt has the program left; it is run once.
build_program() {
    rm -rf "$work"/[0-9]*
    cd "$here/crates/$crate" || return
    # (first is some words)
    # shellcheck disable=SC2086
    held env DIX_BUILD="$work" rt run --cpu="$(processor)" -- $first </dev/null >"$work/ran" 2>&1
    status=$?
    cat "$work/ran" >>"$log"
    [ "$status" != 0 ] || keep_verdict "$work/ran" "$out"
    cd "$OLDPWD" && return "$status"
}
