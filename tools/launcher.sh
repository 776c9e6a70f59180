#!/bin/sh
# Tries ./incr, tools/unproved_run.py and tools/prove.py over a small repository, in a folder with a space in its name, and with a
# script in the place of `rt` that proves nothing: what is said, run, passed on and left behind in each case. It takes seconds. The
# last line is `N passed, M failed`, and the status is 1 where one failed.
cd "$(dirname "$0")/.." || exit 1
room=$(mktemp -d) || exit 1
trap 'rm -rf "$room"' EXIT
passed=0
failed=0
top="$room/a checkout"
export TMPDIR="$room/left" STAND="$room/stand"
mkdir -p "$top/tools" "$TMPDIR" "$STAND" "$room/bin"
cp incr "$top" && cp tools/below.awk tools/prove.py tools/unproved_run.py "$top/tools" && cp HANDLES "$top" || exit 1
printf 'low:\nincr: low\nincr_profile: low\nother:\n' >"$top/crates.txt"
for crate in low incr incr_profile other; do
    mkdir -p "$top/crates/$crate/src" "$top/crates/$crate/must-fail"
    echo "// $crate" >"$top/crates/$crate/src/lib.rt"
done

# The files of $STAND say what it does: `try` is what is said of a run, `fails` a crate that isn't proved, `waits` a pipe that is read first.
cat >"$room/bin/rt" <<'STAND_IN'
#!/bin/sh
case $1 in
try)
    shift
    echo "$PWD: $*" >"$STAND/words"
    cat
    cat "$STAND/try" >&2
    exit 5
    ;;
ci)
    echo $$ >"$STAND/process"
    ls crates crates/* >"$STAND/copied"
    [ ! -p "$STAND/waits" ] || timeout 20 head -n 1 "$STAND/waits" >"$STAND/read"
    status=0
    for crate in $(sed 's/:.*//' crates.txt); do
        if [ "$crate" = "$(cat "$STAND/fails" 2>/dev/null)" ]; then
            echo "rt: $crate NOT PROVED"
            status=1
            continue
        fi
        echo "rt: $crate proved"
        mkdir -p "crates/$crate/out"
        printf '#!/bin/sh\necho %s "$*"\ncat\nexit 6\n' "$crate" >"crates/$crate/out/$crate"
    done
    exit $status
    ;;
esac
exit 1
STAND_IN
chmod +x "$room/bin/rt"
path=$PATH
PATH=$room/bin:$path

# launches STATUS OUTPUT COMPLAINT [WORD..]: the status and the output must be these, and standard error be one line with the
# complaint in it, or nothing for an empty one; nothing is left among the temporary files.
launches() {
    status=$1 output=$2 complaint=$3
    shift 3
    echo 'a line' | timeout 20 "$top/incr" "$@" >"$room/written" 2>"$room/said"
    ended=$?
    last=$(tail -n 1 "$room/said")
    case $last in
    *"$complaint"*) is_said=yes ;;
    *) is_said= ;;
    esac
    [ -n "$complaint" ] || [ ! -s "$room/said" ] || is_said=
    check "incr $* ($complaint)" [ "$ended/$(cat "$room/written")/$is_said/$(ls "$TMPDIR")" = "$status/$output/yes/" ]
}

# check WHAT COMMAND..: the command must succeed.
check() {
    what=$1
    shift
    if "$@"; then
        passed=$((passed + 1))
    else
        echo "launcher: $what"
        failed=$((failed + 1))
    fi
}

# awaits COMMAND..: waits until it succeeds, for ten seconds at most.
awaits() {
    for _ in $(seq 100); do
        "$@" 2>/dev/null && return
        sleep 0.1
    done
}

# releases: has the one that waits go on.
releases() {
    timeout 10 sh -c 'echo >"$STAND/waits"'
}

# is_gone PROCESS: it has ended, whether or not someone asked for its status.
is_gone() {
    [ ! -d "/proc/$1" ] || grep -q '^State:.Z' "/proc/$1/status"
}

# proves STATUS WORDS: `./incr prove` ends with this status, and its last line has these words in it.
proves() {
    wanted=$1 words=$2
    timeout 20 "$top/incr" prove >"$room/written" 2>"$room/said"
    ended=$?
    check "incr prove: status $ended: $(tail -n 1 "$room/said")" [ "$ended/$(tail -n 1 "$room/said" | grep -c "$words")/$(cat "$room/written")$(ls "$TMPDIR")" = "$wanted/1/" ]
}

# What the launcher takes is told, and nothing is run.
"$top/incr" help </dev/null >"$room/written" 2>&1
check 'help tells of the words' grep -q '^./incr gen STEPS SEED' "$room/written"
check 'help takes twenty lines' [ "$(wc -l <"$room/written")" -le 20 ]

# Nothing is built.
echo 'run=ended status=1 runners=1 proved=no' >"$STAND/try"
launches 1 'a line' 'not proved' run
check 'one line is said of an unproved run' [ "$(wc -l <"$room/said")/$(grep -c './incr prove (or .ci/run)' "$room/said")" = 1/1 ]
check 'the words of an unproved run' [ "$(cat "$STAND/words")" = "$top/crates/incr: --seconds 60 -- run" ]
launches 1 'a line' 'not proved' profile
check 'the words of an unproved profile' [ "$(cat "$STAND/words")" = "$top/crates/incr_profile: --seconds 60 -- run" ]
launches 1 '' 'not proved' gen 0 1
launches 1 '' 'not proved'
echo 'checked: no-answer: the program did not end within the time limit
run=no-answer proved=no' >"$STAND/try"
launches 70 '' 'more than 60 seconds: ./incr prove' run
echo 'checked: no-answer: the program wrote more than 1048576 bytes to standard output or to standard error, the limit on each
run=no-answer proved=no' >"$STAND/try"
launches 70 '' 'more than 1 MiB of output: ./incr prove' run
echo 'error: no such name' >"$STAND/try"
launches 70 '' 'gave no answer' run
check 'why there is no answer' grep -q 'no such name' "$room/said"
PATH=/usr/bin:/bin
if ! command -v rt >/dev/null; then
    launches 70 '' 'not on the path' run
fi
PATH=$room/bin:$path
head -c 67108865 /dev/zero | timeout 20 "$top/incr" run >"$room/written" 2>"$room/said"
check 'a byte too many' [ "$?/$(wc -c <"$room/written")/$(grep -c '64 MiB of input: ./incr prove' "$room/said")" = 70/0/1 ]
timeout 20 "$top/incr" run </ >"$room/written" 2>"$room/said"
check 'a folder is read' [ "$?/$(wc -c <"$room/written")" = 3/0 ]
echo 'run=ended status=0 runners=1 proved=no' >"$STAND/try"
echo 'a line' | timeout 20 "$top/incr" run >/dev/full 2>"$room/said"
check 'no room for the answers' [ $? = 4 ]

# A crate fails, and the programs stay unproved.
echo low >"$STAND/fails"
proves 1 'failed at low after .*/out/prove.log'
check 'what was said of the crate' grep -q 'low NOT PROVED' "$top/out/prove.log"
launches 0 'a line' 'not proved' run
rm "$STAND/fails"

# A run that is asked to end, or killed, leaves no program, and `rt` ends with it.
mkfifo "$STAND/waits"
for sign in TERM KILL; do
    rm -f "$STAND/process"
    python3 "$top/tools/prove.py" 2>"$room/said" &
    first=$!
    awaits [ -s "$STAND/process" ]
    kill -s $sign $first
    wait $first 2>/dev/null
    ended=$?
    case $sign in
    TERM) check 'asked to end' [ "$ended/$(grep -c 'goes on from there' "$room/said")/$(ls "$TMPDIR")" = 143/1/ ] ;;
    KILL) check 'killed' [ $ended = 137 ] ;;
    esac
    sleep 0.2
    check "rt ends with a run that got $sign" is_gone "$(cat "$STAND/process")"
    check "no program of a run that got $sign" [ ! -e "$top/crates/incr/out/incr" ]
done

# Of two runs the second waits. (What the killed one left among the temporary files is gone then.)
rm -f "$STAND/process"
python3 "$top/tools/prove.py" 2>"$room/said" &
first=$!
awaits [ -s "$STAND/process" ]
rm "$STAND/process"
python3 "$top/tools/prove.py" 2>"$room/said.second" &
second=$!
awaits grep -q 'waiting for it' "$room/said.second"
sleep 0.5
check 'the second waits' [ ! -e "$STAND/process" ]
releases
wait $first
check 'the first ends' [ $? = 0 ]
releases
wait $second
check 'the second ends' [ $? = 0 ]
rm "$STAND/waits"
check 'neither tests nor edits are copied' [ "$(grep -c 'other\|must-fail' "$STAND/copied")/$(grep -c low "$STAND/copied")" = 0/2 ]

# The programs are built, and then a proof below them changes.
launches 6 'incr run
a line' '' run
launches 6 'incr_profile run
a line' '' profile
launches 6 'incr gen 0
a line' '' gen 0
sleep 0.1
mkdir "$top/crates/low/proofs"
launches 0 'a line' 'not proved' run
proves 0 'proved and built'
launches 6 'incr run
a line' '' run

echo "$passed passed, $failed failed"
[ "$failed" -eq 0 ]
