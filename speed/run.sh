#!/bin/sh
# shellcheck disable=SC1091,SC2086,SC2154
# Builds and runs the benchmark (x86-64): the archive against the unchanged original, in one process. speed/README.md says what it needs.
# count.sh runs it UNDER the emulator.
set -eu
root=$(cd "$(dirname "$(readlink -f "$0")")/.." && pwd)
. "$root/host/build.sh"
need_archive
cd "$root/speed"
(cd ../oracle && sha256sum --quiet -c original.sha256)
cargo build --release --quiet
exec ${UNDER-} target/release/speed "$@"
