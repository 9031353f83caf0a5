#!/bin/sh
# Packs what `make bindings` left, in bin/dist: a tar for C and C++, a wheel for Python, a crate for Rust.
# Who has one of them needs no kit. With `install PREFIX` it installs what is in the tar.
set -eu
cd "$(dirname "$0")/.."
version=0.1.0
name=p2p_simulated-$version
built=bin/bindings
out=bin/dist
tree=$out/$name-x86_64-linux

skip() { echo "dist: $1 skipped: $2"; }

[ -e $built/libp2p_simulated.so ] || { echo "dist: run \`make bindings\` first"; exit 1; }
rm -rf $tree $out/crate
mkdir -p $tree/include $tree/lib/pkgconfig $tree/lib/cmake/p2p_simulated $tree/share/doc/p2p_simulated

# C and C++: the archive has memory over malloc in it, and so has the shared object
cp bindings/c/p2p_simulated.h bindings/c/p2p_simulated.hpp $tree/include/
cp $built/libp2p_simulated_c.a $tree/lib/libp2p_simulated.a
ar rs $tree/lib/libp2p_simulated.a $built/heap.o 2> /dev/null
cp $built/libp2p_simulated.so $tree/lib/libp2p_simulated.so.0
ln -s libp2p_simulated.so.0 $tree/lib/libp2p_simulated.so
sed "s/@version@/$version/" bindings/dist/p2p_simulated.pc > $tree/lib/pkgconfig/p2p_simulated.pc
cp bindings/dist/p2p_simulatedConfig.cmake $tree/lib/cmake/p2p_simulated/
sed "s/@version@/$version/" bindings/dist/p2p_simulatedConfigVersion.cmake \
    > $tree/lib/cmake/p2p_simulated/p2p_simulatedConfigVersion.cmake
cp LICENSE docs/BINDINGS.md bindings/c/heap.c $tree/share/doc/p2p_simulated/

if [ "${1:-}" = install ]; then
    mkdir -p "$2"
    cp -R $tree/include $tree/lib $tree/share "$2"/
    echo "dist: installed in $2"
    exit 0
fi
tar -C $out -czf $out/$name-x86_64-linux.tar.gz $name-x86_64-linux
echo "dist: $out/$name-x86_64-linux.tar.gz"

if python3 -c "import sys; sys.exit(sys.version_info < (3, 8))" 2> /dev/null; then
    (cd bindings/python && P2P_SIMULATED_SO=../../$built/libp2p_simulated.so python3 -B packing.py ../../$out)
    echo "dist: $out/$name-py3-none-linux_x86_64.whl"
else
    skip "the wheel" "there is no python3, 3.8 or later"
fi

crate=$out/crate
mkdir -p $crate/lib
for part in src tests examples build.rs Cargo.toml README.md; do cp -R bindings/rust/$part $crate/; done
cp LICENSE $crate/
cp $built/libp2p_simulated_c.a $built/libp2p_simulated_heap.a $crate/lib/
if cargo --version > /dev/null 2>&1; then
    if ! (cd $crate && cargo package --quiet --offline --allow-dirty --target-dir ../target) > $out/crate.out 2>&1; then
        cat $out/crate.out
        exit 1
    fi
    cp $out/target/package/$name.crate $out/
    rm -rf $out/target
    echo "dist: $out/$name.crate"
else
    skip "the crate" "there is no cargo"
fi
