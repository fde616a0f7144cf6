#!/bin/sh
# What reading and rewriting an RTP packet costs, beside the same written plainly in C, in one process.
# Usage: bench/rtp_packet.sh. It prints nanoseconds a packet.
. "$(dirname "$0")/scaffold.sh"
needs rt clang
take rtp_packet
caller rtp_packet 'rtp_packet_c staticlib: rtp_packet'
beside_c rtp_packet rtp_packet_c
