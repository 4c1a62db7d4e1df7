#!/bin/sh
# A bus error, replayed by the proved panel and by a model of the fault (not by the bought code itself, see
# docs/SUPPLY.md): levels and burning times side by side.
# With names of files: each must hold the table that this prints.
cd "$(dirname "$0")/.." || exit 2
[ -x target/bin/replay ] || tools/programs.sh replay || exit 2
cargo build --quiet --release --offline --manifest-path tests/Cargo.toml -p spoilt || exit 2
exec tests/target/release/bus_error target/bin/replay examples/bus-error.txt "$@"
