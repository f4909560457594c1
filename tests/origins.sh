#!/bin/sh
# Proves and builds the program of crates/origins, and holds runs that ask for origins to the definitions in Python: sh tests/origins.sh [COUNT [SEED]]
# The last line is 'N passed, M failed'.
set -eu
cd "$(dirname "$0")/.."
. firmware/kit.sh

built origins
python3 tests/origins.py "${1:-400}" "${2:-1}" "$PWD/target/bin/origins"
