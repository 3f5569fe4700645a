# shellcheck shell=sh disable=SC2034,SC2086,SC2164,SC3013
# Sourced by the scripts here and by speed/run.sh: the compiler for x86-64 (the archive's machine), how its programs run here, and what must be
# built first. On x86-64 that is cc; on another machine Debian's cross compiler and emulator. What is missing is installed by package name, and said.
: "${root:?set by the script that sources this}"
archive=$root/target/staticlib/libchultarvi.a
flags='-std=c11 -D_GNU_SOURCE -O2 -Wall -Wextra -Wconversion -Wshadow'
case $(uname -m) in
x86_64 | amd64) CC=${CC:-cc} CXX=${CXX:-g++} RUN=${RUN-} LINK=${LINK-} packages='gcc g++ libc6-dev' ;;
*) # static, so that the emulator needs no library of the other machine
    CC=${CC:-x86_64-linux-gnu-gcc} CXX=${CXX:-x86_64-linux-gnu-g++} RUN=${RUN-qemu-x86_64} LINK=${LINK--static}
    packages='gcc-x86-64-linux-gnu g++-x86-64-linux-gnu qemu-user' ;;
esac

# Asks nothing. A fresh machine may have no list of packages yet, so on failure that is fetched first.
install_packages() {
    as_root=
    [ "$(id -u)" = 0 ] || as_root='sudo -n'
    apt="$as_root env DEBIAN_FRONTEND=noninteractive apt-get"
    $apt install -y $packages >&2 || { $apt update >&2 && $apt install -y $packages >&2; }
}

# need PROGRAM...: installs the packages where one of the programs is not here
need() {
    for program; do
        command -v "$program" >/dev/null && continue
        echo "host: $program is not here; installing the Debian packages $packages" >&2
        install_packages || {
            echo "host: could not install $packages" >&2
            exit 2
        }
        return
    done
}

# The archive, older than nothing that it is made of: what rt writes, the folders out/ and with them the time of each crate's own folder, is none of
# that. It is a copy of what rt makes of the crate chultarvi_c, under the name that callers link. Its time becomes that of the start, since rt may leave
# an unchanged one, and a file may be edited meanwhile. The copy stands beside its place until it is whole.
need_archive() {
    [ -e "$archive" ] && [ -z "$(find "$root/crates" "$root/crates.txt" -path "$root/crates/*/out" -prune -o \
        -newer "$archive" ! -path "$root/crates" ! \( -path "$root/crates/*" ! -path "$root/crates/*/*" \) -print -quit)" ] && return
    command -v rt >/dev/null || {
        echo 'host: target/staticlib/libchultarvi.a is missing or older than crates/, and rt, which proves and builds it, is not here' >&2
        exit 2
    }
    echo 'host: proving and building the archive (rt lib in crates/chultarvi_c)' >&2
    mkdir -p "${archive%/*}"
    began=$(mktemp "$root/target/archive.XXXXXX")
    copied=$(mktemp "$archive.XXXXXX")
    if ! { (cd "$root/crates/chultarvi_c" && rt lib) >&2 && cp "$root/crates/chultarvi_c/out/libchultarvi_c.a" "$copied" && chmod 644 "$copied" &&
        touch -r "$began" "$copied" && mv -f "$copied" "$archive"; }; then
        rm -f "$began" "$copied"
        exit 2
    fi
    rm -f "$began"
}

# by their paths from the root, where all compiling is done
sources='host/cli/*.c'
own_headers='host/cli/*.h'
headers='include/chultarvi.h host/records.h host/chain.h host/pairs.h'

# stale FILE OTHER...: is one of the others newer than the file, or the file not there?
stale() {
    [ -e "$1" ] || return 0
    made=$1
    shift
    for other; do [ "$other" -nt "$made" ] && return 0; done
    return 1
}

# build_to FILE WORD...: what the compiler makes of the words. It stands beside its place until it is whole, so that nobody runs half a program and
# builds at the same time do not meet.
build_to() {
    made=$1
    shift
    mkdir -p "${made%/*}"
    beside=$(mktemp "$made.XXXXXX")
    if $CC $flags $LINK -o "$beside" "$@"; then
        chmod 755 "$beside"
        mv -f "$beside" "$made"
    else
        rm -f "$beside"
        return 1
    fi
}

# need_driver NAME FLAG...: target/NAME, made of host/drivers/NAME.c over the archive
need_driver() {
    driver=$1
    shift
    need "$CC" ${RUN%% *}
    need_archive
    cd "$root"
    stale "target/$driver" "$archive" "host/drivers/$driver.c" $headers || return 0
    build_to "target/$driver" "$@" "host/drivers/$driver.c" "$archive"
}

need_program() {
    need "$CC" ${RUN%% *}
    need_archive
    (
        cd "$root"
        stale target/chultarvi "$archive" $sources $own_headers $headers || exit 0
        echo 'host: building target/chultarvi' >&2
        build_to target/chultarvi $sources "$archive"
    )
}
