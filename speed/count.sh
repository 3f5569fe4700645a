#!/bin/sh
# The tables of run.sh in executed instructions instead of time (x86-64): both sides under qemu's user emulator, with the plugin insn.c. Other work on
# the machine does not change them, and an Arm machine, where the archive runs only so, would count the same.
set -eu
cd "$(dirname "$0")"
command -v qemu-x86_64 >/dev/null || {
    echo 'speed: qemu-x86_64 is not here (Debian: qemu-user)' >&2
    exit 2
}
mkdir -p target
cc -O2 -Wall -Wextra -shared -fPIC -o target/insn.so insn.c
INSN=$(mktemp)
UNDER='qemu-x86_64 -plugin target/insn.so'
export INSN UNDER
trap 'rm -f "$INSN"' EXIT
./run.sh "$@"
