#!/bin/sh
# Runs the built programs as the system does: over every example, on other words, into a full sink, from a folder, line by
# line, with little memory, over more bytes than a script may have, and over the dialogues. What they write must be right byte
# for byte, and so must the status. The last line is `N passed, M failed`, and the status is 1 where one failed or a program isn't built.
cd "$(dirname "$0")/.." || exit 1
room=$(mktemp -d) || exit 1
trap 'rm -rf "$room"' EXIT
passed=0
failed=0

# judge WHAT STATUS WANTED_STATUS [WRITTEN WANTED]: the status and the files must be as they are wanted.
judge() {
    if [ "$2" -ne "$3" ]; then
        echo "programs: $1: status $2, and not $3"
        failed=$((failed + 1))
    elif [ $# -gt 3 ] && ! cmp "$4" "$5" >"$room/difference" 2>&1; then
        echo "programs: $1: $(cat "$room/difference")"
        failed=$((failed + 1))
    else
        passed=$((passed + 1))
    fi
}

# runs PROGRAM STATUS WANTED SOURCE [WORD..]: from a source, with these words, into a file.
runs() {
    name=$1 status=$2 wanted=$3 source=$4
    shift 4
    timeout 10 "crates/$name/out/$name" "$@" <"$source" >"$room/written" 2>/dev/null
    judge "$name $* < $source" $? "$status" "$room/written" "$wanted"
}

# fills PROGRAM SOURCE [WORD..]: into a sink with no room.
fills() {
    name=$1 source=$2
    shift 2
    timeout 10 "crates/$name/out/$name" "$@" <"$source" >/dev/full 2>/dev/null
    judge "$name $* < $source > /dev/full" $? 4
}

# answers PROGRAM: a line is answered while the source stays open.
answers() {
    mkfifo "$room/asked" "$room/answered"
    timeout 10 "crates/$1/out/$1" run <"$room/asked" >"$room/answered" 2>/dev/null &
    exec 3>"$room/asked" 4<"$room/answered"
    echo 'var x int 1' >&3
    timeout 5 head -c 3 <&4 >"$room/written"
    echo ok >"$room/wanted"
    judge "$1 run: a line is answered before the next one is there" $? 0 "$room/written" "$room/wanted"
    exec 3>&- 4<&-
    wait $!
    rm "$room/asked" "$room/answered"
}

# starves PROGRAM: with 32 megabytes of memory, over a script that takes more: whole lines from the front of the answers.
starves() {
    (ulimit -v 32768 && exec timeout 10 "crates/$1/out/$1" run) <"$room/large.incr" >"$room/written" 2>/dev/null
    status=$?
    head -n "$(wc -l <"$room/written")" "$room/large.out" >"$room/wanted"
    judge "$1 run: without memory" "$status" 5 "$room/written" "$room/wanted"
    if [ ! -s "$room/written" ] || [ "$(wc -l <"$room/written")" -ge 40000 ]; then
        echo "programs: $1 run: without memory: not a front of the answers"
        failed=$((failed + 1))
    fi
}

# exceeds PROGRAM: one byte more than a script may have, all of one line.
exceeds() {
    head -c 1073741825 /dev/zero | timeout 60 "crates/$1/out/$1" run >"$room/written" 2>/dev/null
    judge "$1 run: a byte too many" $? 6 "$room/written" "$room/nothing"
}

# measures STATUS WANTED [WORD..]: the third program, whose times go nowhere.
measures() {
    status=$1 wanted=$2
    shift 2
    timeout 10 crates/incr_bench/out/incr_bench "$@" >"$room/written" 2>/dev/null
    judge "incr_bench $*" $? "$status" "$room/written" "$wanted"
}

# generates WANTED STEPS SEED: a generated script, in ten seconds of a processor and 64 megabytes. Nothing is read: the source is a folder.
generates() {
    wanted=$1
    shift
    (ulimit -t 10 && ulimit -v 65536 && exec timeout 60 crates/incr/out/incr gen "$@") </ >"$room/written" 2>/dev/null
    status=$?
    echo "$wanted" >"$room/wanted"
    judge "incr gen $*" "$status" 0 "$room/written" "$room/wanted"
}

# status_of WRITTEN: 1 where a line was refused, else 0.
status_of() {
    if grep -q '^refused [0-9]' "$1"; then echo 1; else echo 0; fi
}

: >"$room/nothing"
echo 'usage: incr run | incr gen STEPS SEED' >"$room/incr.usage"
echo 'usage: incr_profile run' >"$room/incr_profile.usage"
printf 'stabilise\n# note\n' >"$room/refused.incr"
echo 'refused 1' >"$room/refused.out"

# folds whose elements take every place that a script may have, and one line more
awk 'BEGIN {
    for (i = 0; i < 1024; i++) {
        printf "let a%d fold add from 0 [1", i
        for (k = 1; k < (i < 1023 ? 1023 : 1022); k++) printf ",1"
        print "]"
    }
    print "let z 1"
}' >"$room/full.incr"
awk 'BEGIN { for (i = 0; i < 1024; i++) print "ok"; print "refused 19" }' >"$room/full.out"

# a fold over 2,000 elements, which nearly fill the longest line, called anew for all of them where one changes
awk 'BEGIN {
    print "var x int 1"
    printf "let s fold add from 0 [x"
    for (k = 1; k < 2000; k++) printf ",x"
    print "]\nobserve o s\nstabilize\nshow o\nset x 3\nstabilize\nshow o"
}' >"$room/long.incr"
printf 'ok\nok\nok\nstable 1\no = 2000\nok\nstable 2\no = 6000\n' >"$room/incr.long"
printf 'ok\nok\nok\nstable 1\ncalls 2000\no = 2000\nok\nstable 2\ncalls 2000\no = 6000\n' >"$room/incr_profile.long"

# texts of a thousand bytes, of which 32 megabytes hold some
awk 'BEGIN { for (i = 0; i < 40000; i++) printf "var x%d text \"%01000d\"\n", i, i }' >"$room/large.incr"
yes ok | head -n 40000 >"$room/large.out"

for program in incr incr_profile; do
    if [ ! -x "crates/$program/out/$program" ]; then
        echo "programs: crates/$program/out/$program is missing: rt ci builds it"
        failed=$((failed + 1))
        continue
    fi
    runs "$program" 0 "$room/nothing" /dev/null run
    runs "$program" 1 "$room/refused.out" "$room/refused.incr" run
    runs "$program" 1 "$room/full.out" "$room/full.incr" run
    runs "$program" 0 "$room/$program.long" "$room/long.incr" run
    runs "$program" 2 "$room/$program.usage" examples/first.incr
    runs "$program" 2 "$room/$program.usage" examples/first.incr run run
    runs "$program" 2 "$room/$program.usage" examples/first.incr Run
    runs "$program" 2 "$room/$program.usage" examples/first.incr gen 0 1
    runs "$program" 3 "$room/nothing" / run
    fills "$program" examples/first.incr run
    fills "$program" examples/first.incr
    answers "$program"
    starves "$program"
    exceeds "$program"
    for script in examples/*.incr; do
        case $program in
        incr) wanted=${script%.incr}.out ;;
        *) wanted=${script%.incr}.profile ;;
        esac
        if [ -f "$wanted" ]; then
            runs "$program" "$(status_of "$wanted")" "$wanted" "$script" run
        else
            echo "programs: $wanted is missing"
            failed=$((failed + 1))
        fi
    done
done

generates 'lines 23 bytes 90 sum 6758 refused 0' 1 0
generates 'lines 28 bytes 129 sum 9710 refused 0' 3 1
generates 'lines 28 bytes 129 sum 9710 refused 0' -- +03 1
generates 'lines 51075 bytes 484812 sum 34388893 refused 0' 20000 7
generates 'lines 51075 bytes 484812 sum 34388893 refused 0' 20000 7
for words in 'gen' 'gen 3' 'gen 3 1 1' 'gen 20001 1' 'gen 3 2147483648' 'gen 3 -1' 'gen 3 x' 'gen --help' 'run x' 'help' '--version'; do
    runs incr 2 "$room/incr.usage" / $words
done
fills incr / gen 3 1

python3 tools/deep_lines.py >"$room/written" || { cat "$room/written"; false; }
judge "incr run: the deepest lines under 256 KB of stack" $? 0

if [ -x crates/incr_bench/out/incr_bench ]; then
    echo 'usage: incr_bench chain|fan|tree|fold|cut|never|idle|flip|flipx|aside|switch|bind|nested|boxed|ticks|watched|turns|told|shown|ended|expert|expertx|frozen|steady SIZE ROUNDS' >"$room/bench.usage"
    measures 0 crates/incr_bench/stdout nested 9 100
    printf 'calls 0\nnotices 15\nlast 4\n' >"$room/told.out"
    measures 0 "$room/told.out" told 5 3
    measures 1 "$room/nothing" ended 3 4
    printf 'calls 15\nnotices 0\nlast 3\n' >"$room/expert.out"
    measures 0 "$room/expert.out" expert 3 5
    printf 'calls 15\nnotices 0\nlast 15\n' >"$room/expertx.out"
    measures 0 "$room/expertx.out" expertx 3 5
    printf 'calls 0\nnotices 0\nlast 6\n' >"$room/frozen.out"
    measures 0 "$room/frozen.out" frozen 3 5
    printf 'calls 70\nnotices 5\nlast 11\n' >"$room/steady.out"
    measures 0 "$room/steady.out" steady 3 5
    measures 2 "$room/bench.usage" boxed 220
    measures 2 "$room/bench.usage" chain 129 1
    timeout 10 crates/incr_bench/out/incr_bench chain 3 1 >/dev/full 2>/dev/null
    judge "incr_bench chain 3 1 > /dev/full" $? 4
    timeout 10 crates/incr_bench/out/incr_bench chain 3 1 2>/dev/full >/dev/null
    judge "incr_bench chain 3 1 2> /dev/full" $? 4
    (ulimit -v 32768 && exec timeout 10 crates/incr_bench/out/incr_bench fan 500000 1) >"$room/written" 2>/dev/null
    judge "incr_bench fan 500000 1: without memory" $? 5 "$room/written" "$room/nothing"
else
    echo "programs: crates/incr_bench/out/incr_bench is missing: rt ci builds it"
    failed=$((failed + 1))
fi

sh tools/launcher.sh >"$room/launcher" 2>&1
status=$?
[ $status -eq 0 ] || cat "$room/launcher"
judge 'tools/launcher.sh' $status 0

# the dialogues, which tell of themselves how many runs were as wanted
if python3 tools/dialogues.py; then passed=$((passed + 1)); else failed=$((failed + 1)); fi

echo "$passed passed, $failed failed"
[ "$failed" -eq 0 ]
