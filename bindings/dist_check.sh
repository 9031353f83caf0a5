#!/bin/sh
# Builds and runs a program of each language from the packages of bin/dist alone, in a folder outside the
# repository. What is not installed is skipped with a word.
set -eu
cd "$(dirname "$0")/.."
top=$PWD
dist=$top/bin/dist
CC=${CC:-cc}
CXX=${CXX:-c++}
work=$(mktemp -d)
trap 'rm -rf "$work"' EXIT
cp bindings/c/example.c bindings/c/example.out bindings/c/loop.cpp bindings/rust/examples/speed.rs "$work"/
cd "$work"
tar -xzf $dist/p2p_simulated-*.tar.gz
tree=$(echo "$work"/p2p_simulated-*-linux)

skip() { echo "dist: $1 skipped: $2"; }

if pkg-config --version > /dev/null 2>&1; then
    flags=$(PKG_CONFIG_PATH=$tree/lib/pkgconfig pkg-config --cflags --libs p2p_simulated)
else
    skip pkg-config "it is not installed"
    flags="-I$tree/include -L$tree/lib -lp2p_simulated"
fi
$CC -std=c11 example.c $flags -Wl,-rpath,$tree/lib -o shared
$CC -std=c11 -I$tree/include example.c $tree/lib/libp2p_simulated.a -o static
./shared | cmp - example.out
./static | cmp - example.out
echo "dist: C from the tar, shared and static"

if echo "#include <span>" | $CXX -std=c++20 -fsyntax-only -x c++ - 2> /dev/null; then
    $CXX -std=c++20 -I$tree/include loop.cpp $tree/lib/libp2p_simulated.a -o loop
    ./loop > /dev/null
    echo "dist: C++ from the tar"
    if cmake --version > /dev/null 2>&1; then
        cat > CMakeLists.txt << 'CMAKE'
cmake_minimum_required(VERSION 3.12)
project(gossip CXX)
find_package(p2p_simulated 0.1 REQUIRED)
add_executable(gossip loop.cpp)
target_compile_features(gossip PRIVATE cxx_std_20)
target_link_libraries(gossip p2p_simulated::shared)
CMAKE
        cmake -S . -B built -DCMAKE_PREFIX_PATH=$tree > /dev/null
        cmake --build built > /dev/null
        ./built/gossip > /dev/null
        echo "dist: C++ by CMake"
    else
        skip CMake "it is not installed"
    fi
else
    skip "C++" "there is no compiler of C++20 ($CXX)"
fi

if python3 -m venv --without-pip env 2> /dev/null; then
    site=$(env/bin/python -c "import sysconfig; print(sysconfig.get_path('purelib'))")
    if python3 -m pip --version > /dev/null 2>&1; then
        python3 -m pip install --quiet --no-deps --no-index --target "$site" $dist/*.whl
    else
        python3 -m zipfile -e $dist/*.whl "$site"
    fi
    env -u P2P_SIMULATED_SO env/bin/python -c "
import p2p_simulated
with p2p_simulated.State() as state:
    state.limit(0, 1, egress=1000)
    state.enqueue(0, 1, 2, 7, b'x' * 500)
    assert state.advance(state.next())[0].deliver_at == 500_000_000
assert p2p_simulated.__version__ == '0.1.0' and p2p_simulated.__file__.startswith('$work')"
    echo "dist: Python from the wheel"
else
    skip Python "there is no python3 with venv"
fi

if [ -e $dist/p2p_simulated-0.1.0.crate ]; then
    tar -xzf $dist/p2p_simulated-0.1.0.crate
    for edition in 2018 2021 2024; do
        mkdir -p user/src
        cp speed.rs user/src/main.rs
        printf '[package]\nname = "user"\nversion = "0.1.0"\nedition = "%s"\n\n' $edition > user/Cargo.toml
        printf '[dependencies]\np2p_simulated = { path = "../p2p_simulated-0.1.0" }\n' >> user/Cargo.toml
        unset P2P_SIMULATED_LIB
        if ! (cd user && cargo run --quiet --offline --target-dir ../target > out.txt 2>&1); then
            [ $edition = 2024 ] && grep -q "edition" user/out.txt && skip "edition 2024" "cargo is older" && continue
            cat user/out.txt
            exit 1
        fi
    done
    echo "dist: Rust from the crate, in editions 2018 to 2024"
else
    skip Rust "there is no crate"
fi
