#!/bin/sh
# texts.sh [COUNT [SEED]] [--plant] [--docs DIR]: as `run`, with COUNT random texts (100,000) for each of the kinds A, H
# and U, against the Rust standard library.
count=100000
. "$(dirname "$0")/oracle/begin"
kept
count=$((3 * count))
hold random texts
