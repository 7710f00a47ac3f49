#!/bin/sh
# kit.sh: prints the folder of the Rattle kit whose rt is on the PATH.
set -eu

rt=$(command -v rt) || { echo 'kit.sh: rt is not on the PATH' >&2; exit 2; }
dirname "$(dirname "$(readlink -f "$rt")")"
