#!/usr/bin/env bash
# Times ten million numbered items through a lane of 64 places between two threads, and from a producer through a ring of
# 64 slots a side, over one and two workers, to a consumer (crates/dp_bench). Beside them stand crossbeam's own queues in
# Rust, one in place of the lane and two in place of the ring, with the same back-off. Each time is the least of nine runs.
# Needs rt, rustc, and crossbeam's sources (Debian: librust-crossbeam-queue-dev) below $CRATES or where Debian has them.
set -euo pipefail
. "$(dirname "$0")/common.sh"
sources=${CRATES:-/usr/share/cargo/registry}
items=10000000

(cd "$top/crates/dp_bench" && rt run -- lane 1 >"$work/log" 2>&1) || { tail "$work/log" >&2; exit 1; }

uses() { for crate in "$@"; do echo --extern "$crate=$work/lib$crate.rlib"; done; }
library() { rustc -O --edition 2018 --cap-lints allow --crate-type rlib --crate-name "$1" --cfg 'feature="std"' --cfg 'feature="alloc"' --out-dir "$work" "${@:2}"; }
library cfg_if "$sources"/cfg-if-1*/src/lib.rs
library crossbeam_utils $(uses cfg_if) "$sources"/crossbeam-utils-0*/src/lib.rs
library crossbeam_queue $(uses cfg_if crossbeam_utils) -L "$work" "$sources"/crossbeam-queue-0*/src/lib.rs
rustc -O --edition 2021 $(uses crossbeam_queue crossbeam_utils) -L "$work" -o "$work/array_queue" "$here/array_queue.rs"

machine
for shape in lane one-worker two-workers; do
  ours=$(least "$top/crates/dp_bench/out/dp_bench" $shape $items)
  theirs=$(least "$work/array_queue" $shape $items)
  printf '%-12s %6s million items a second, ArrayQueue %6s: %s times as long\n' \
    $shape "$(ratio ${items}000 "$ours")" "$(ratio ${items}000 "$theirs")" "$(ratio "$ours" "$theirs")"
done
