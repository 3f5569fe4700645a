#!/bin/sh
# shellcheck disable=SC1091,SC2086,SC2154
# Builds the archive and the driver, and runs it (x86-64).
set -eu
root=$(cd "$(dirname "$(readlink -f "$0")")/../.." && pwd)
. "$root/host/build.sh"
# all names bound at the start, or the first call of memcpy would run the loader on the measured stack
need_driver stack -pthread -Wl,-z,now
$RUN target/stack
