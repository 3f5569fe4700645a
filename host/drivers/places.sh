#!/bin/sh
# shellcheck disable=SC1091,SC2086,SC2154
# Builds the archive and the driver, and runs it (x86-64).
set -eu
root=$(cd "$(dirname "$(readlink -f "$0")")/../.." && pwd)
. "$root/host/build.sh"
need_driver places
$RUN target/places "$@"
