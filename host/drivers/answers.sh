#!/bin/sh
# shellcheck disable=SC1091,SC2086,SC2154
# Builds target/answers, where it is missing or older than what it is made of, and runs it: it answers the oracle's questions by the archive,
# in edition 1 or in the one that the argument says.
set -eu
root=$(cd "$(dirname "$(readlink -f "$0")")/../.." && pwd)
. "$root/host/build.sh"
need_driver answers
exec $RUN target/answers "$@"
