#!/bin/sh
# programs.sh NAME ..: proves and builds the programs crates/NAME, and puts them where the tests and the pages name
# them, as target/bin/NAME. With no name replay, lent_tables and bench_figures.
set -eu
cd "$(dirname "$0")/.."
[ $# -gt 0 ] || set -- replay lent_tables bench_figures
mkdir -p target/bin
for name in "$@"; do
    # rt runs what it has built: on nothing here, whose answer nobody reads
    (cd "crates/$name" && rt run </dev/null >/dev/null)
    cp "crates/$name/out/$name" target/bin/
done
