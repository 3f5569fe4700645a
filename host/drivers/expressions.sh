#!/bin/sh
# shellcheck disable=SC1091,SC2086,SC2154
# Builds target/expressions, where it is missing or older than what it is made of, and runs it: it calls the archive as oracle/expressions_rows.py tells it.
set -eu
root=$(cd "$(dirname "$(readlink -f "$0")")/../.." && pwd)
. "$root/host/build.sh"
need_driver expressions
exec $RUN target/expressions
