#!/bin/sh
# Counts the places of docs/DESIGN-PASS.md in src/ of the crates: run it at the top of a checkout.
set -eu
src() { find crates -path '*/src/*' -name '*.rt' ! -path 'crates/*/out/*' -exec cat {} +; }
lines() { src | grep -cE "$1" || true; }
joined() { src | tr '\n' ' ' | grep -oE "$1" | wc -l; }
answers() { find crates -path '*/proofs/*' -name Answers.antt ! -path 'crates/*/out/*' "$@"; }
echo "1 a refusal, or another code, as a u8: $(lines '^ *(\) -> u8|(pub )?fn .*\) -> u8)')"
echo "1 a test of such a number: $(lines 'if [a-z_.]+ != 0 \{')"
echo "1 a kind of set as a number: $(lines '\bkind: (usize|u8)')"
echo "1 a flag beside a value: $(lines 'pub ok: bool')"
echo "3 loops by while: $(lines '^ *while ')"
echo "5 width and disks as parameters: $(joined 'fn [a-z_]+(<[^>]*>)?\([^)]*width: usize, *disks: usize')"
echo "5 of these with the bytes of a cell: $(joined 'fn [a-z_]+(<[^>]*>)?\([^)]*width: usize, *disks: usize, *size: usize')"
for fact in InArray Sized InUnit Accepted 'Lost ' Listing Reached; do echo "5 $fact in a requires: $(lines "requires.*$fact")"; done
echo "6 a count or a place beside a buffer: $(lines '^ *(count|at): usize,$|, (count|at): usize[,)]')"
echo "8 files of answers: $(answers | wc -l), lines: $(answers -exec cat {} + | wc -l), copies name_2 ..: $(answers -exec cat {} + | grep -cE '^[a-z][a-z_]*_[0-9]+ :' || true)"
echo "lines of src: $(src | wc -l)"
