#!/bin/sh
# Builds the clients of embed/ whose compilers are there and runs them: their price screens must show what changed, and every example
# must print the transcript that the program prints, calls at their edges must answer what incr.h says, and where one allocation after
# another fails nothing that was printed, and no notice, may be lost. The header must compile without a warning, as each C and each C++. Then
# it installs into a folder of its own, and builds and runs clients against what is there. It tells what it skips. The last line is
# `N passed, M failed`, and the status is 1 where one failed.
cd "$(dirname "$0")/.." || exit 1
room=$(mktemp -d) || exit 1
trap 'rm -rf "$room"' EXIT
passed=0
failed=0

# judge WHAT STATUS [WRITTEN WANTED]: the status must be 0, and the files alike.
judge() {
    if [ "$2" -ne 0 ]; then
        echo "embed: $1: status $2"
        failed=$((failed + 1))
    elif [ $# -gt 2 ] && ! cmp "$3" "$4" >"$room/difference" 2>&1; then
        echo "embed: $1: $(cat "$room/difference")"
        failed=$((failed + 1))
    else
        passed=$((passed + 1))
    fi
}

# makes TARGET..: builds with the compilers that were found.
makes() {
    make -s -C embed CC="$cc" CXX="$cxx" RUSTC="$rustc" "$@" >"$room/log" 2>&1
    status=$?
    [ $status -eq 0 ] || tail -n 5 "$room/log"
    judge "make $*" $status
    return $status
}

# screens WORD..: a client, on no script and on each example.
screens() {
    timeout 20 "$@" >"$room/written" 2>&1
    judge "$*" $? "$room/written" embed/screen.out
    for script in examples/*.incr; do
        timeout 20 "$@" "$script" >"$room/written" 2>&1
        judge "$* $script" $? "$room/written" "${script%.incr}.out"
    done
}

# edges WORD..: a program that judges by itself.
edges() {
    timeout 20 "$@" >"$room/written" 2>&1
    status=$?
    [ $status -eq 0 ] || cat "$room/written"
    judge "$*" $status
}

# faults WANTED WORD..: a client that prints what a script printed in many runs, in each of which other allocations failed.
faults() {
    wanted=$1
    shift
    timeout 300 "$@" embed/faults.incr >"$room/written" 2>"$room/log"
    status=$?
    [ $status -eq 0 ] || tail -n 5 "$room/log"
    judge "$* embed/faults.incr" $status
    awk -f embed/allowed.awk "$wanted" "$room/written" >"$room/log" 2>&1
    status=$?
    [ $status -eq 0 ] || cat "$room/log"
    judge "what $* lost" $status
}

# headers: the header and lines that are literals, without a warning, by each compiler as each C from C99 and each C++ from C++98; and
# incr.hpp says where it needs C++17.
headers() {
    echo "refused 4: a name isn't declared (incr $(sed -n 's/^#define INCR_VERSION_TEXT "\(.*\)"$/\1/p' embed/incr.h))" >"$room/wanted"
    echo "#include \"$PWD/embed/cpp/incr.hpp\"" >"$room/client.cpp"
    for compiler in gcc g++ clang clang++; do
        if [ -z "$(first $compiler)" ]; then
            echo "embed: skipped: the header by $compiler, which isn't here"
            continue
        fi
        case $compiler in
        *++) language=c++ standards="c++98 c++11 c++17 c++20" ;;
        *) language=c standards="c99 c11 c17" ;;
        esac
        for standard in $standards; do
            $compiler -x $language -std=$standard -Wall -Wextra -pedantic -Werror -Iembed -o "$room/literals" embed/c/literals.c \
                -x none embed/out/libincr.a >"$room/log" 2>&1
            status=$?
            [ $status -eq 0 ] || head -n 5 "$room/log"
            judge "the header by $compiler as $standard" $status
            "$room/literals" >"$room/written" 2>&1
            judge "lines that are literals, by $compiler as $standard" $? "$room/written" "$room/wanted"
            rm -f "$room/literals"
        done
        [ $language = c++ ] || continue
        for standard in c++17 c++20; do
            $compiler -x c++ -std=$standard -Wall -Wextra -pedantic -Werror -Iembed -fsyntax-only "$room/client.cpp" >"$room/log" 2>&1
            status=$?
            [ $status -eq 0 ] || head -n 5 "$room/log"
            judge "incr.hpp by $compiler as $standard" $status
        done
        # (that is all it says)
        $compiler -x c++ -std=c++11 -Iembed -fsyntax-only "$room/client.cpp" >"$room/log" 2>&1
        [ $? -ne 0 ] && [ "$(grep 'error:' "$room/log" | grep -c 'incr.hpp needs C++17') $(grep -c 'error:' "$room/log")" = "1 1" ]
        judge "incr.hpp by $compiler as c++11" $?
    done
}

# built WHAT STATUS: what was built against the installed files.
built() {
    [ "$2" -eq 0 ] || tail -n 5 "$room/log"
    judge "built against the installed files: $1" "$2"
    return "$2"
}

# installed WHAT WORD..: such a client, that finds the shared library in the prefix: its screen.
installed() {
    what=$1
    shift
    LD_LIBRARY_PATH=$prefix/lib timeout 20 "$@" >"$room/written" 2>&1
    judge "run over the installed files: $what" $? "$room/written" embed/screen.out
}

# installs: puts all of it into a prefix, and builds clients against that alone.
installs() {
    prefix=$room/prefix
    for program in incr incr_profile; do
        if [ ! -x crates/$program/out/$program ]; then
            echo "embed: skipped: what is installed, for crates/$program/out/$program isn't built"
            return
        fi
    done
    makes install PREFIX="$prefix" || return
    for program in incr incr_profile; do
        "$prefix/bin/$program" run <examples/change.incr >"$room/written" 2>"$room/log"
        status=$?
        cmp -s crates/$program/out/$program "$prefix/bin/$program"
        judge "the installed $program" $(($? + status))
    done
    # (staged elsewhere, all of it stands under DESTDIR, and names the prefix alone)
    makes install DESTDIR="$room/staged" PREFIX=/opt/incr
    (cd "$prefix" && find . | sort) >"$room/wanted"
    (cd "$room/staged/opt/incr" && find . | sort) >"$room/written"
    judge "what DESTDIR has" $? "$room/written" "$room/wanted"
    ! grep -rqF "$room" "$room/staged/opt/incr/lib/pkgconfig" "$room/staged/opt/incr/lib/cmake"
    judge "DESTDIR is named nowhere" $?

    if [ -z "$(first pkg-config)" ]; then
        echo "embed: skipped: clients by pkg-config, which isn't here"
    else
        # (the words that pkg-config tells are split)
        flags=$(PKG_CONFIG_PATH=$prefix/lib/pkgconfig pkg-config --cflags --libs incr)
        "$cc" -std=c11 -o "$room/by_pkg_config" embed/c/screen.c $flags >"$room/log" 2>&1
        built "C, by pkg-config" $? && installed "C, by pkg-config" "$room/by_pkg_config"
        if [ -n "$cxx" ]; then
            "$cxx" -std=c++17 -pthread -o "$room/by_pkg_config" embed/cpp/screen.cpp $flags >"$room/log" 2>&1
            built "C++, by pkg-config" $? && installed "C++, by pkg-config" "$room/by_pkg_config"
        fi
    fi
    if [ -z "$(first cmake)" ]; then
        echo "embed: skipped: a client by CMake, which isn't here"
    else
        mkdir "$room/cmake"
        cp embed/c/screen.c "$room/cmake"
        cat >"$room/cmake/CMakeLists.txt" <<'LIST'
cmake_minimum_required(VERSION 3.13)
project(client C)
find_package(incr 0.1 REQUIRED)
foreach(kind incr static)
  add_executable(by_${kind} screen.c)
  target_link_libraries(by_${kind} incr::${kind})
endforeach()
LIST
        { cmake -S "$room/cmake" -B "$room/cmake/out" -DCMAKE_PREFIX_PATH="$prefix" -DCMAKE_C_COMPILER="$cc" &&
            cmake --build "$room/cmake/out"; } >"$room/log" 2>&1
        if built "C, by CMake" $?; then
            installed "C, by CMake" "$room/cmake/out/by_incr"
            installed "C, by CMake and the archive" "$room/cmake/out/by_static"
        fi
    fi
    if [ -z "$(first cargo)" ]; then
        echo "embed: skipped: the Rust crates: there is no cargo"
    else
        (cd embed/rust && INCR_LIB_DIR=$prefix/lib CARGO_TARGET_DIR=$room/target cargo test -q --offline --locked) >"$room/log" 2>&1
        built "the Rust crates, by INCR_LIB_DIR" $?
        if [ -n "$(first pkg-config)" ]; then
            (unset INCR_LIB_DIR && cd embed/rust && PKG_CONFIG_PATH=$prefix/lib/pkgconfig CARGO_TARGET_DIR=$room/target cargo test -q --offline --locked) \
                >"$room/log" 2>&1
            built "the Rust crates, by pkg-config" $?
        fi
    fi
    if [ -z "$python" ] || ! "$python" -m venv "$room/venv" >"$room/log" 2>&1; then
        echo "embed: skipped: the wheel: there is no python3, or it makes no virtual environment here"
    else
        "$room/venv/bin/pip" install -q --no-index --disable-pip-version-check ./embed/python >"$room/log" 2>&1
        if built "the wheel" $?; then
            cp embed/python/screen.py embed/python/edges.py "$room"
            env -u PYTHONPATH -u INCR_LIBRARY timeout 20 "$room/venv/bin/python" "$room/screen.py" >"$room/written" 2>&1
            judge "the installed package" $? "$room/written" embed/screen.out
            edges env -u PYTHONPATH -u INCR_LIBRARY "$room/venv/bin/python" "$room/edges.py"
        fi
    fi
}

# is_current ARCHIVE: it is newer than every source, definition and proof of the crates below it.
is_current() {
    [ -f "$1" ] || return 1
    archive=$1
    set -- crates.txt
    for crate in $(awk -v top=incr_c -f tools/below.awk crates.txt); do
        for part in src specs proofs; do
            [ ! -d "crates/$crate/$part" ] || set -- "$@" "crates/$crate/$part"
        done
    done
    [ -z "$(find "$@" -type f -newer "$archive" | head -n 1)" ]
}

# first WORD..: the first of these that is there, else nothing.
first() {
    for it in "$@"; do
        if command -v "$it" >/dev/null 2>&1; then
            echo "$it"
            return
        fi
    done
}

cc=$(first cc gcc clang)
cxx=$(first c++ g++ clang++)
rustc=$(first rustc)
python=$(first python3)

if [ -z "$(first make)" ] || [ -z "$(first ar)" ]; then
    echo "embed: skipped, all of it: there is no make, or no ar"
    echo "0 passed, 0 failed"
    exit 0
fi
status=0
if ! is_current crates/incr_c/out/libincr_c.a; then
    # (where the crates below aren't built either, this proves them all)
    (cd crates/incr_c && rt lib) >"$room/log" 2>&1
    status=$?
    [ $status -eq 0 ] || tail -n 5 "$room/log"
    judge "rt lib in crates/incr_c" $status
fi
if [ $status -eq 0 ] && makes out/libincr.a; then
    if [ -z "$cc" ]; then
        echo "embed: skipped: C, and Python for want of the shared library: there is no C compiler"
    else
        if makes c; then
            screens embed/out/screen_c
            edges embed/out/edges
            edges embed/out/texts
            faults embed/faults.out embed/out/faults_c
        fi
        headers
        if makes libraries; then
            installs
        fi
        if [ -z "$python" ]; then
            echo "embed: skipped: Python: there is no python3"
        elif makes python; then
            screens "$python" embed/python/screen.py
            edges "$python" embed/python/edges.py
            for way in give line; do
                faults embed/faults.out env INCR_LIBRARY=embed/out/failing "$python" embed/python/faults.py "$way"
            done
            # (a run of many lines is over before a notice is read)
            grep -v '^told ' embed/faults.out >"$room/printed"
            faults "$room/printed" env INCR_LIBRARY=embed/out/failing "$python" embed/python/faults.py run
        fi
    fi
    if [ -z "$cxx" ]; then
        echo "embed: skipped: C++: there is no C++ compiler"
    elif makes cpp; then
        screens embed/out/screen_cpp
        edges embed/out/screen_cpp threads
        if [ -n "$cc" ] && makes out/faults_cpp; then
            faults embed/faults.out embed/out/faults_cpp
        fi
    fi
    if [ -z "$rustc" ] || [ -z "$cc" ]; then
        echo "embed: skipped: Rust: there is no rustc, or no C compiler that links for it"
    elif makes rust; then
        screens embed/out/screen_rs
        faults embed/faults.out embed/out/faults_rs
    fi
fi

echo "$passed passed, $failed failed"
[ "$failed" -eq 0 ]
