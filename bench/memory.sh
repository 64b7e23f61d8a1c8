#!/usr/bin/env bash
# The resident memory of two ends of the library for C while a message of 1,000,000 octets is in flight on each of 64
# connections, and on one.
set -eu
cd "$(dirname "$0")/.."
make lib >&2
mkdir -p bench/out
gcc -std=c11 -D_GNU_SOURCE -O2 -Wall -Wextra -Iinclude -o bench/out/memory bench/memory.c build/libosi-session.a
bench/out/memory 64 1000000
bench/out/memory 1 1000000
