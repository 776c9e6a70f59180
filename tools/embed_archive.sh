#!/bin/sh
# Builds crates/incr_c/out/libincr_c.a over the libraries that the gate proved in this checkout.
#
# `rt lib` would prove every crate below once more, since it takes no library that the gate built. So .ci/run calls this right behind
# the gate, where no library was there before it: each that is there now is the gate's. The ten calls are proved again, as for any
# archive. Where this doesn't work tools/embed.sh builds the archive by `rt lib`.
cd "$(dirname "$0")/../crates/incr_c" || exit 1
kit=$(dirname "$(rt doc)")
set --
for crate in $(awk -v top=incr_c -f ../../tools/below.awk ../../crates.txt); do
    [ "$crate" = incr_c ] || set -- "$@" -L "dependency=$PWD/../$crate/out/rlib"
done
mkdir -p out
if ! "$kit/bin/rattle" build --crate-name incr_c --crate-type staticlib src/lib.rt \
    --extern "std=$kit/rlibs/std.rlib" -L "dependency=$kit/rlibs" \
    --extern session_slots=../session_slots/out/rlib/session_slots.rlib "$@" \
    --antt-project "$kit/rattle/logic/antt-project.json" --logic-built "$kit/logic_built" \
    --backend llvm --toolchain "$kit/toolchain" -o out/libincr_c.a >out/archive.log 2>&1; then
    echo "embed: the archive isn't built over the gate's libraries; what was said is in crates/incr_c/out/archive.log"
    exit 1
fi
