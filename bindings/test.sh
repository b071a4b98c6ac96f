#!/usr/bin/env bash
# The library for C: built by both of the kit's compilers, linked and run from C, C++, Rust and Python. The last line is 'N passed, M failed'.
# `test.sh --build` builds it alone, into out/library, and `test.sh --build-arm64` for arm64 too; `test.sh --built` tries what these left, and
# wants no kit. `test.sh --over-ci` builds both over what `rt ci` just left.
# out/library/rattle and out/library/llvm hold what each compiler makes. The faster stands in out/library: Rattle's of the book, LLVM's of
# the table. What is wanted of a program and of random ops is one text for both, so both answer alike.
set -u -o pipefail
cd "$(dirname "$0")/.." || exit 1
made=$PWD/out/library passed=0 failed=0
work=$(mktemp -d)
trap 'rm -rf "$work"' EXIT

# tried NAME TEXT COMMAND..: a command that ends with 0 and writes bindings/expected/TEXT.txt (or anything, where TEXT is -).
tried() {
    if "${@:3}" > "$work/out" 2> "$work/err" && { [[ $2 == - ]] || diff "bindings/expected/$2.txt" "$work/out" > "$work/err"; }; then
        passed=$((passed + 1))
    else
        failed=$((failed + 1))
        echo "library: $1 failed"
        head -n 20 "$work/out" "$work/err"
    fi
}

# ran NAME TEXT COMMAND..: the same of the program that a compiler's command makes.
ran() {
    rm -f "$work/program"
    "${@:3}" -o "$work/program" || echo "library: $1 is not compiled"
    tried "$1" "$2" "$work/program"
}

# warns COMPILER..: it compiles a call whose reply is looked at, and refuses each whose reply is dropped.
warns() {
    local it
    for it in 'if (!nd_granted(nd_join(book, 0, 0, 0))) *all = *all' 'nd_join(book, 0, 0, 0)' 'nd_open(book->tasks, 0, book->queues, 0)' 'nd_meet(all, all)'; do
        printf '#include <neddwyrol_table.h>\nvoid drops(nd_book *book, nd_pass *all);\nvoid drops(nd_book *book, nd_pass *all) { %s; (void)book, (void)all; }\n' "$it" > "$work/drops.c"
        if "$@" -c -o "$work/drops.o" "$work/drops.c"; then [[ $it == if* ]]; else [[ $it != if* ]]; fi || return 1
    done
}

# joined PREFIX TABLE HEAP TO: the shared table with its few lines over malloc as one object, of which a program sees no names but nd_*.
joined() {
    "$1ld" -r -o "$work/table.o" --whole-archive "$2" --no-whole-archive "$3" && "$1objcopy" --wildcard --keep-global-symbol='nd_*' "$work/table.o" &&
        rm -f "$4" && "$1ar" rcs "$4" "$work/table.o"
}

# gathered: what scripts/build.py made, in out/library, with the kit's lines over malloc.
gathered() {
    local it
    for it in llvm rattle; do
        mkdir -p "$made/$it" && cp crates/neddwyrol/out/"$it"/lib*.a "$made/$it" &&
            joined '' "crates/neddwyrol_table/out/$it/libneddwyrol_table.a" "${KIT:-/opt/rattle}/c/liblibc_c.a" "$made/$it/libneddwyrol_table.a" || return 1
    done
    cp "$made/rattle/libneddwyrol.a" "$made/llvm/libneddwyrol_table.a" "$made" && bash bindings/shared.sh "$made/libneddwyrol.a" "$made"
}

# compiles_for_arm64: whether a C program can be made for arm64. (Debian's gcc-aarch64-linux-gnu can stand without libc6-dev-arm64-cross.)
compiles_for_arm64() {
    command -v aarch64-linux-gnu-gcc > /dev/null && printf '#include <stdint.h>\n#include <stdlib.h>\nint main(void) { return 0; }\n' |
        aarch64-linux-gnu-gcc -static -x c - -o "$work/arm" 2> /dev/null
}

# gathered_for_arm64: the same for arm64, where a compiler for it makes the lines over malloc.
gathered_for_arm64() {
    mkdir -p "$made/aarch64" && cp crates/neddwyrol/out/aarch64/libneddwyrol.a "$made/aarch64" || return 1
    ! compiles_for_arm64 || {
        aarch64-linux-gnu-gcc -O2 -Wall -Wextra -fPIC -c bindings/heap.c -o "$work/heap.o" &&
            joined aarch64-linux-gnu- crates/neddwyrol_table/out/aarch64/libneddwyrol_table.a "$work/heap.o" "$made/aarch64/libneddwyrol_table.a"
    }
}

if [[ ${1-} != --built ]]; then
    over=()
    [[ ${1-} != --over-ci ]] || over=(--over-ci)
    python3 scripts/build.py "${over[@]}" neddwyrol neddwyrol_table && gathered || { echo '0 passed, 1 failed'; exit 1; }
    [[ ${1-} != --build ]] || exit 0
    python3 scripts/build.py --arm64 "${over[@]}" neddwyrol neddwyrol_table && gathered_for_arm64 || { echo '0 passed, 1 failed'; exit 1; }
    [[ ${1-} != --build-arm64 ]] || exit 0
fi

# The declarations are the source's. Over each build: C and C++ by each compiler that is there, the shared table from four threads,
# and from Rust the crates' tests and random ops beside plain Rust.
tried 'the declarations' - python3 bindings/declarations.py "$made/libneddwyrol.so"
checked=(-O2 -Wall -Wextra -Werror -I bindings/include)
for compiler in gcc clang; do
    ! command -v "$compiler" > /dev/null || tried "$compiler warns of a dropped reply" - warns "$compiler" -std=c11 -pedantic "${checked[@]}"
done
for compiler in g++ clang++; do
    ! command -v "$compiler" > /dev/null || tried "$compiler warns of a dropped reply" - warns "$compiler" -std=c++17 "${checked[@]}" -x c++
done
export CARGO_TARGET_DIR=$made/cargo CARGO_NET_OFFLINE=true
for it in llvm rattle; do
    export NEDDWYROL_LIB=$made/$it
    both=("$made/$it/libneddwyrol_table.a" "$made/$it/libneddwyrol.a")
    tried "$it: no undefined symbol" - awk '/ U / { print; found = 1 } END { exit found }' <(nm "${both[1]}")
    tried "$it: no name but its own" - awk 'NF == 3 && $3 !~ /^nd_/ { print; found = 1 } END { exit found }' <(nm -g --defined-only "${both[@]}")
    for example in first documentation book arithmetic simulator damage; do
        for compiler in gcc clang; do
            ! command -v "$compiler" > /dev/null || ran "$example by $compiler over $it" "$example" "$compiler" -std=c11 -pedantic "${checked[@]}" "bindings/c/$example.c" "${both[1]}"
        done
        for compiler in g++ clang++; do
            [[ $example == damage ]] || ! command -v "$compiler" > /dev/null ||
                ran "$example by $compiler over $it" "$example" "$compiler" -std=c++17 "${checked[@]}" -x c++ "bindings/c/$example.c" -x none "${both[1]}"
        done
    done
    for example in claims empty epochs threads; do
        ran "the shared table's $example over $it" "$example" cc -std=c11 -pedantic "${checked[@]}" "bindings/c/$example.c" "${both[@]}" -pthread
    done
    # (what the benchmark asks, every way answers alike)
    ran "the benchmark over $it" - cc -std=gnu11 "${checked[@]}" bindings/speed/*.c "${both[@]}" -pthread
    tried "the benchmark's threads over $it" - "$work/program" threads 3
    if command -v cargo > /dev/null; then
        tried "the Rust crate over $it" - cargo test -q --manifest-path bindings/rust/Cargo.toml
        tried "the shared table's Rust crate over $it" - cargo test -q --manifest-path bindings/rust_table/Cargo.toml
        tried "random ops over $it" random cargo run -q --release --manifest-path bindings/plain/Cargo.toml --bin random 1000000
        tried "random ops and rebases over $it" rebases cargo run -q --release --manifest-path bindings/plain/Cargo.toml --bin rebases 1000000
        tried "the example in Rust over $it" documentation cargo run -q --manifest-path bindings/rust/Cargo.toml --example documentation
    else
        echo 'library: there is no cargo: the Rust crates and the random ops are not tried'
    fi
done

# A day with a task that waits a thousand times a second, which nd_check holds to the book second by second.
cc -std=c11 "${checked[@]}" bindings/c/simulator.c "$made/libneddwyrol.a" -o "$work/simulator" || echo 'library: the simulator is not compiled'
tried 'a day of the simulator' day "$work/simulator" 86400

# For arm64: compiled for it, and run by qemu. (It runs the threads in the memory order of the machine that it runs on.)
if [[ -f $made/aarch64/libneddwyrol.a ]] && command -v qemu-aarch64 > /dev/null && compiles_for_arm64; then
    tried 'arm64: no undefined symbol' - awk '/ U / { print; found = 1 } END { exit found }' <(aarch64-linux-gnu-nm "$made/aarch64/libneddwyrol.a")
    for example in first documentation book arithmetic simulator damage claims empty epochs threads; do
        arm=("$made/aarch64/libneddwyrol.a")
        [[ ! $example =~ ^(claims|empty|epochs|threads)$ ]] || arm=("$made/aarch64/libneddwyrol_table.a" "${arm[@]}")
        aarch64-linux-gnu-gcc -static -std=c11 "${checked[@]}" "bindings/c/$example.c" "${arm[@]}" -pthread -o "$work/arm" || echo "library: $example is not compiled for arm64"
        tried "$example on arm64" "$example" qemu-aarch64 "$work/arm"
    done
else
    echo 'library: there is no qemu-aarch64, C compiler with its library or library of ours for arm64: that is not tried'
fi

# Each example under valgrind, and threads under helgrind and ThreadSanitizer too: they find nothing. (Of the last the C part alone
# is instrumented: what it cannot see are the library's own steps.)
if command -v valgrind > /dev/null; then
    for example in first documentation book arithmetic simulator claims empty epochs; do
        cc -g -I bindings/include "bindings/c/$example.c" "${both[@]}" -o "$work/$example" || echo "library: $example is not compiled"
        tried "$example under valgrind" "$example" valgrind -q --error-exitcode=1 --leak-check=full "$work/$example"
    done
    cc -g -I bindings/include bindings/c/damage.c "$made/libneddwyrol.a" -o "$work/damage" &&
        cc -g -I bindings/include bindings/c/threads.c "${both[@]}" -pthread -o "$work/threads" || echo 'library: damage and threads are not compiled'
    tried 'damaged memories under valgrind' - valgrind -q --error-exitcode=1 "$work/damage" 3000
    for tool in --tool=helgrind --leak-check=full; do
        search="valgrind -q --error-exitcode=1 $tool --suppressions=$PWD/bindings/rust_table/helgrind.supp"
        tried "four threads under $tool" - $search "$work/threads" 3
        ! command -v cargo > /dev/null || tried "four threads in Rust under $tool" - env CARGO_TARGET_X86_64_UNKNOWN_LINUX_GNU_RUNNER="$search" \
            cargo test -q --manifest-path bindings/rust_table/Cargo.toml --test threads -- 3
    done
else
    echo 'library: there is no valgrind: the threads are not tried under helgrind'
fi
if command -v clang > /dev/null && clang -g -fsanitize=thread -I bindings/include bindings/c/threads.c "${both[@]}" -pthread -o "$work/threads" 2> /dev/null; then
    tried 'four threads under ThreadSanitizer' - setarch -R "$work/threads" 20
else
    echo 'library: there is no clang with ThreadSanitizer: the threads are not tried under it'
fi

# What is installed, into an empty folder: what the page tells its reader, the table by its pkg-config file, and that all of it goes.
# And Python, over the shared library.
tried 'the first program of README and LIBRARY' - python3 bindings/page.py --shows bindings/c/first.c README.md docs/LIBRARY.md
tried 'the commands of LIBRARY' - python3 bindings/page.py docs/LIBRARY.md "$made"
tried 'install' - bash bindings/install.sh "$made" "$work/usr"
if command -v pkg-config > /dev/null; then
    read -ra flags <<< "$(PKG_CONFIG_PATH=$work/usr/lib/pkgconfig pkg-config --cflags --libs neddwyrol_table)"
    ran 'the installed table' claims cc -O2 bindings/c/claims.c "${flags[@]}"
fi
ran 'the installed shared library' documentation cc -O2 -I "$work/usr/include" bindings/c/documentation.c -L "$work/usr/lib" -lneddwyrol "-Wl,-rpath,$work/usr/lib"
! command -v man > /dev/null || tried 'the installed page' - man -l "$work/usr/share/man/man3/neddwyrol.3"
tried 'uninstall' - bash bindings/install.sh --remove "$work/usr"
tried 'nothing is left' - test -z "$(find "$work/usr" -mindepth 1 2> /dev/null)"
export NEDDWYROL_SO=$made/libneddwyrol.so.1 PYTHONDONTWRITEBYTECODE=1 PYTHONPATH=bindings/python
tried "the Python module's tests" - python3 -m unittest -q test_neddwyrol
tried 'the example in Python' documentation python3 bindings/python/documentation.py
tried 'the simulator in Python' simulator python3 bindings/python/simulator.py
echo "$passed passed, $failed failed"
[[ $failed == 0 ]]
