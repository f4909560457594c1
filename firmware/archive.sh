#!/bin/sh
# Proves and builds what C programs link: target/staticlib/libfirmware.a. firmware/kelafshir.h declares what is in it.
set -eu
cd "$(dirname "$0")/.."
. firmware/kit.sh
archive
