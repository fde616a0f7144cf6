#!/bin/sh
# What the worker's engine takes to pass packets on, beside the same written plainly in Rust: one Producer with 1, 10, 50 and 500
# Consumers, each on a transport of its own, payloads of 160 and 1,200 bytes. The kinds are `direct` and `extended`, opus by the channel
# without a header extension and with one of three elements, where plain C is beside it too; `plain`, datagrams in and out; `pipe`, three
# encodings to pipe Consumers; and `video`, VP8 to Consumers some of which are paused and resumed. Nothing is sent: the outbox looks at
# the last byte of each frame. The programs take turns, and have to agree on every byte. Then what the close of a transport takes, and
# those of many one by one.
# Usage: bench/engine.sh [REPEATS]. REPEATS is 3 by default; the best of them counts. It prints nanoseconds for each packet out.
. "$(dirname "$0")/scaffold.sh"
needs rt clang rustc python3
take seq_manager keyframes rtp_packet rtp_extension ms_base ms_devices channel_frames channel_msgs rtp_params plain_transport \
    inner_transports producer simple_consumer pipe_consumer worker_requests worker_router worker_calls worker_engine
caller engine 'engine_bench: ms_base ms_devices worker_engine anyhow'
rm "$work/crates/engine_bench/"*.c "$work/crates/engine_bench/"*.rs "$work/crates/engine_bench/"*.py
built engine_bench run </dev/null
clang -O2 -march=x86-64-v2 -o "$work/plain_c" "$bench/engine/plain.c"
rustc --edition 2021 -C opt-level=3 -C target-cpu=x86-64-v2 -o "$work/plain_rust" "$bench/engine/plain.rs"
python3 "$bench/engine/main.py" "$bench/engine" "$work" "${1:-3}"
