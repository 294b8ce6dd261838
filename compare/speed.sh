#!/bin/sh
# The times of docs/PERFORMANCE.md: proves and writes the static libraries (parts, and the whole check), builds the original beside them, and measures both in one run.
# The variable RT names the prover's command; ORIGINAL the folder of the original's sources, where they do not stand beside the repository.
cd "$(dirname "$0")/.." || exit 2
for crate in exports exports_terms exports_store tariff; do
    (cd "crates/$crate" && exec "${RT:-rt}" lib) || exit 1
done
cd compare && cargo run --release --offline --features reader,terms -- speed && exec cargo run --release --offline --features reader,terms -- whole
