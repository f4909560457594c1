#!/bin/sh
# Proves and builds the program of crates/belts, and holds open and fixed runs to the definitions in Python: sh tests/belts.sh [COUNT [SEED]]
# The last line is 'N passed, M failed'.
set -eu
cd "$(dirname "$0")/.."
. firmware/kit.sh

built belts
python3 tests/belts.py "${1:-1000}" "${2:-1}" "$PWD/target/bin/belts"
