#!/usr/bin/env bash
# Compiles the header as C and as C++, tests the Rust crate, runs both examples and compares what they print.
# It needs crates/host/out/libhost.a, which `rt lib` makes in crates/host.
set -euo pipefail
cd "$(dirname "${BASH_SOURCE[0]}")/.."

work=$(mktemp -d)
trap 'rm -rf "$work"' EXIT

library=crates/host/out/libhost.a
crate=bindings/rust/Cargo.toml
files=(examples/swing.txt examples/turn.txt examples/turn-array.capture examples/wrap.txt)

echo 'the header as C++'
g++ -std=c++11 -Wall -Wextra -Werror -fsyntax-only -x c++ include/gutkavu.h

echo 'the example in C'
gcc -std=c11 -Wall -Wextra -Werror -O2 -Iinclude -o "$work/example" bindings/c/example.c "$library"
"$work/example" "${files[@]}" >"$work/c"
diff -u bindings/c/example.stdout "$work/c"

echo 'the tests of the Rust crate'
cargo test --offline --release --quiet --manifest-path "$crate"

echo 'the example in Rust'
cargo run --offline --release --quiet --manifest-path "$crate" --example example -- "${files[@]}" >"$work/rust"
diff -u bindings/rust/examples/example.stdout "$work/rust"
cat "$work/rust"
