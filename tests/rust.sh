#!/bin/sh
# The Rust crate: its tests and its example, linked with the archive. Where the machine is not x86-64 it needs a Rust compiler with an x86-64 standard library.
set -eu
cd "$(dirname "$0")/../bindings/rust"
MALLETFROND_LIB=$PWD/../../target/staticlib
CARGO_TARGET_DIR=$PWD/../../target/rust
export MALLETFROND_LIB CARGO_TARGET_DIR
target=x86_64-unknown-linux-gnu
if [ "$(uname -m)" != x86_64 ]; then
    . ../../tests/rust-x86.sh
fi
cargo test --offline --quiet --tests --target $target
cargo run --offline --quiet --example correction --target $target | cmp - examples/correction.stdout
echo "the tests and the example of the Rust crate"
