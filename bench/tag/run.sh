#!/bin/sh
# Builds both, runs them once and prints both times.
set -e
here=$(cd "$(dirname "$0")" && pwd)
cd "$here/../.."
(cd crates/tag_c && rt lib)
mkdir -p target/bench
gcc -O3 -Wall -o target/bench/tag "$here/main.c" "$here/tag.c" crates/tag_c/out/libtag_c.a
target/bench/tag
