#!/bin/sh
# Looks for wrong answers and for leaks, by hand: clients run under the address and undefined-behaviour checks of the C compiler, also while
# one allocation after another fails, and under valgrind where it is there. tools/embed.sh looks for what is lost. The last line is
# `N passed, M failed`, and the status is 1 where one failed.
cd "$(dirname "$0")/.." || exit 1
room=$(mktemp -d) || exit 1
trap 'rm -rf "$room"' EXIT
passed=0
failed=0

# judge WORD..: runs it, and tells what it says where it fails.
judge() {
    if timeout 300 "$@" >"$room/said" 2>&1; then
        passed=$((passed + 1))
    else
        echo "embed_faults: $* failed:"
        tail -n 15 "$room/said"
        failed=$((failed + 1))
    fi
}

judge make -s -C embed libraries c checked
judge embed/out/edges_checked
judge embed/out/texts_checked
for program in faults_checked faults_cpp_checked; do
    judge embed/out/$program embed/faults.incr
    cp "$room/said" "$room/runs"
    judge awk -f embed/allowed.awk embed/faults.out "$room/runs"
    tail -n 1 "$room/said"
done
for script in examples/*.incr; do
    judge embed/out/screen_checked "$script"
done
if command -v valgrind >/dev/null; then
    for words in embed/out/edges embed/out/texts embed/out/screen_c "embed/out/screen_c examples/refusals.incr" "embed/out/screen_c examples/change.incr" \
        "embed/out/faults_c embed/faults.incr"; do
        # (the words of a command, none of which has a space)
        judge valgrind -q --leak-check=full --errors-for-leak-kinds=all --error-exitcode=9 $words
    done
else
    echo "embed_faults: skipped: valgrind is not there"
fi

echo "$passed passed, $failed failed"
[ "$failed" -eq 0 ]
