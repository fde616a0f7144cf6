#!/bin/sh
# What a call of SeqManager::input, vp8_starts_key and vp9_starts_key costs, beside the same written plainly in C, in one process.
# Usage: bench/numbers.sh. It prints nanoseconds a call.
. "$(dirname "$0")/scaffold.sh"
needs rt clang
take seq_manager keyframes
caller numbers 'numbers_c staticlib: seq_manager keyframes'
beside_c numbers numbers_c
