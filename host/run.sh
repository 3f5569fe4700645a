#!/bin/sh
# shellcheck disable=SC1091,SC2086,SC2154
# Builds what is missing and runs the command line with the words given; with none it scans the example note against the default book.
set -eu
root=$(cd "$(dirname "$(readlink -f "$0")")/.." && pwd)
. "$root/host/build.sh"
need_program
if [ $# = 0 ]; then
    cd "$root"
    set -- scan books/debian-3.book examples/note.txt
fi
exec $RUN "$root/target/chultarvi" "$@"
