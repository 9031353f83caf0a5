#!/bin/sh
# Builds bin/bindings from the archive of crates/p2p_simulated_c, and tests each language. A language
# whose tools are missing is skipped, with a word. `make bindings` makes the archive first.
set -eu
cd "$(dirname "$0")/.."
out=bin/bindings
CC=${CC:-cc}
c=bindings/c
flags="-std=c11 -O2 -Wall -Wextra -Werror -pedantic"
mkdir -p $out

skip() { echo "bindings: $1 skipped: $2"; }

# whether the C compiler makes a program, with these flags, that runs
compiles() {
    echo "int main(void) { return 0; }" | $CC "$@" -x c - -o $out/empty 2> /dev/null && $out/empty 2> /dev/null
}

if ! compiles -pthread || ! command -v ar > /dev/null; then
    skip "C, Rust and Python" "there is no C compiler ($CC) with ar"
    exit 0
fi

# what the other languages link: the archive, memory, and both as a shared object
cp crates/p2p_simulated_c/out/libp2p_simulated_c.a $out/
$CC $flags -fPIC -c $c/heap.c -o $out/heap.o
rm -f $out/libp2p_simulated_heap.a
ar rcs $out/libp2p_simulated_heap.a $out/heap.o
$CC -shared -o $out/libp2p_simulated.so -Wl,-soname,libp2p_simulated.so.0 -Wl,--version-script=$c/exports.map \
    $out/heap.o -Wl,--whole-archive $out/libp2p_simulated_c.a -Wl,--no-whole-archive

# the same over memory that can be refused, for tests
refusing=$out/refusing
mkdir -p $refusing
cp $out/libp2p_simulated_c.a $refusing/
$CC $flags -fPIC -c $c/refusing_heap.c -o $refusing/heap.o
rm -f $refusing/libp2p_simulated_heap.a
ar rcs $refusing/libp2p_simulated_heap.a $refusing/heap.o
$CC -shared -o $refusing/libp2p_simulated.so $refusing/heap.o \
    -Wl,--whole-archive $out/libp2p_simulated_c.a -Wl,--no-whole-archive

build() { # NAME [sanitizer flags or libraries]
    name=$1
    shift
    heap=$out/heap.o
    [ "$name" = refusals ] && heap=$refusing/heap.o
    $CC $flags "$@" $c/"$name".c $heap $out/libp2p_simulated_c.a -pthread -o $out/"$name"
}

for name in test refusals threads example script speed; do build $name; done
$out/test
# each wrong body of wrong.c has to fail in the test
wraps=$(sed -n 's/^CALL([a-z0-9_]*, \(p2p_[a-z_]*\),.*/-Wl,--wrap=\1/p' $c/wrong.c)
$CC $flags $c/test.c $c/wrong.c $out/heap.o $out/libp2p_simulated_c.a -pthread $wraps -o $out/wrong
$out/wrong > /dev/null
bodies=$(sed -n 's/.*[^a-z_]is("\([a-z-]*\)").*/\1/p' $c/wrong.c)
for body in $bodies; do
    if P2P_WRONG=$body $out/wrong > /dev/null 2>&1; then
        echo "c: test.c does not tell the wrong body $body"
        exit 1
    fi
done
echo "c: test.c tells $(echo "$bodies" | wc -l) wrong bodies"
$out/refusals
$out/threads
$out/example > $out/example.out
cmp $out/example.out $c/example.out
if compiles -fsanitize=address,undefined; then
    for name in test refusals; do
        build $name -g -fsanitize=address,undefined -fno-sanitize-recover=all
        $out/$name > /dev/null
        build $name
    done
    echo "c: the sanitizers found nothing"
else
    skip "the sanitizers" "the C compiler lacks them, or they do not run here"
fi

# C++ 20, with heap.c as C++
CXX=${CXX:-c++}
if echo "#include <span>" | $CXX -std=c++20 -fsyntax-only -x c++ - 2> /dev/null; then
    cxx="$CXX -std=c++20 -O2 -Wall -Wextra -Werror -pedantic"
    $cxx $c/loop.cpp -x c++ $c/heap.c -x none $out/libp2p_simulated_c.a -o $out/loop
    $out/loop > $out/loop.out
    cmp $out/loop.out $c/loop.out
    $cxx $c/refusals.cpp $refusing/heap.o $out/libp2p_simulated_c.a -o $out/refusals_cpp
    $out/refusals_cpp
    if compiles -fsanitize=address,undefined; then
        $cxx -g -fsanitize=address,undefined -fno-sanitize-recover=all $c/refusals.cpp $refusing/heap.o \
            $out/libp2p_simulated_c.a -o $out/refusals_cpp
        $out/refusals_cpp > /dev/null
        $cxx -g -fsanitize=address,undefined -fno-sanitize-recover=all $c/loop.cpp $out/heap.o \
            $out/libp2p_simulated_c.a -o $out/loop
        $out/loop | cmp - $c/loop.out
    fi
    echo "c++: an event loop, and refusals as exceptions"
else
    skip "C++" "there is no compiler of C++20 ($CXX)"
fi

# beside the program: what it prints of each example, and its status
for script in examples/*.link examples/generated/*.link; do
    status=0
    $out/script run < "$script" 2> /dev/null > $out/script.out || status=$?
    cmp $out/script.out "${script%.link}.out"
    [ $status = 2 ] && continue
    $out/script calls < "$script" | cmp - "${script%.link}.out"
    $out/script lists < "$script" | cmp - "${script%.link}.out"
done
echo "c: each example prints what linkrun prints, by p2p_run, call by call and by lists of messages"

if cargo --version > /dev/null 2>&1 && minor=$(rustc --version 2> /dev/null | sed 's/^rustc 1\.\([0-9]*\).*/\1/') && [ "$minor" -ge 63 ]; then
    if ! (cd bindings/rust && cargo test --quiet --offline --target-dir ../../$out/rust) > $out/rust.out 2>&1; then
        cat $out/rust.out
        exit 1
    fi
    if ! (cd bindings/rust && P2P_SIMULATED_LIB=$PWD/../../$refusing cargo test --quiet --offline \
        --target-dir ../../$refusing/rust --features refusing-heap --test refusals) > $out/rust.out 2>&1; then
        cat $out/rust.out
        exit 1
    fi
    (cd bindings/rust && cargo run --quiet --release --offline --target-dir ../../$out/rust --example consensus) |
        cmp - bindings/rust/examples/consensus.out
    echo "rust: calls and examples as documented, refusals in turn, rounds of consensus as stored"
    if cargo clippy --version > /dev/null 2>&1; then
        (cd bindings/rust && cargo clippy --quiet --offline --all-targets --target-dir ../../$out/rust -- -D warnings)
        echo "rust: clippy has no warning"
    fi
else
    skip Rust "there is no cargo with rustc, 1.63 or later"
fi

if python3 -c "import ctypes, sys; sys.exit(sys.version_info < (3, 8))" 2> /dev/null; then
    (cd bindings/python && P2P_SIMULATED_SO=../../$out/libp2p_simulated.so python3 -B -m unittest --quiet)
    (cd bindings/python && P2P_SIMULATED_SO=../../$refusing/libp2p_simulated.so python3 -B -m unittest --quiet \
        test_p2p_simulated.Refusing)
    echo "python: calls and examples as documented, refusals in turn"
else
    skip Python "there is no python3, 3.8 or later"
fi
