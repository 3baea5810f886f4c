#!/usr/bin/env bash
# Proves the calls for other languages and writes target/staticlib/librma.a, which include/rma.h and the Rust crate go with.
set -eu
cd "$(dirname "$0")/.."
(cd crates/rma_c && rt lib)
mkdir -p target/staticlib
cp crates/rma_c/out/librma_c.a target/staticlib/librma.a
