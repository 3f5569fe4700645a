#!/bin/sh
# shellcheck disable=SC1091,SC2086,SC2154
# Installs the program, header, archive, default books, man page, pkg-config file and CMake config under a prefix: host/install.sh PREFIX. What is
# missing is built first. Each file is written beside its place and renamed, so that nobody finds half of one; a second run changes nothing.
set -eu
umask 022

help() {
    cat <<'END'
host/install.sh PREFIX

Installs Chultarvi under PREFIX, an absolute path such as /usr/local or "$HOME/.local", and says each file:

  bin/chultarvi                  the program
  include/chultarvi.h            the header
  lib/libchultarvi.a             the archive, for x86-64
  lib/pkgconfig/chultarvi.pc     cc app.c $(pkg-config --cflags --libs chultarvi)
  lib/cmake/chultarvi/           find_package(chultarvi), target chultarvi::chultarvi
  share/chultarvi/debian-3.book  the default book, of edition 3, which takes notes with accents
  share/chultarvi/debian-2.book  the same of edition 2, for ASCII alone
  share/chultarvi/debian.book    the same of edition 1, in which the digit 4 counts as a space
  share/man/man1/chultarvi.1     man chultarvi

DESTDIR, an absolute path, stands before PREFIX where it is set, as for a package. The tree may be moved: no file in it holds PREFIX.
Exit status: 0 installed; 2 wrong usage, or trouble with a file.
END
}
stop() {
    echo "install.sh: $1" >&2
    exit 2
}

case ${1-} in
-h | --help) help && exit 0 ;;
'') stop 'no PREFIX; name an absolute path, such as /usr/local (host/install.sh --help tells more)' ;;
-*) stop "$1: no such option (host/install.sh --help tells more)" ;;
/*) ;;
*) stop "$1: PREFIX is not absolute; did you mean $PWD/$1?" ;;
esac
[ $# = 1 ] || stop 'one PREFIX, and nothing behind it (host/install.sh --help tells more)'
case ${DESTDIR-} in '' | /*) ;; *) stop "$DESTDIR: DESTDIR is not absolute; did you mean $PWD/$DESTDIR?" ;; esac
prefix=$(printf %s "$1" | sed 's|//*|/|g; s|/$||')
target=$(printf %s "${DESTDIR-}" | sed 's|/*$||')$prefix

root=$(cd "$(dirname "$(readlink -f "$0")")/.." && pwd)
. "$root/host/build.sh"
need_program
cd "$root"
version=$(sed -n 's/^#define CHULTARVI_VERSION "\(.*\)"$/\1/p' include/chultarvi.h)

work=$(mktemp -d) beside=
trap 'rm -rf "$work" ${beside:+"$beside"}' EXIT
trap 'exit 2' HUP INT TERM

cat >"$work/chultarvi.pc" <<END
prefix=\${pcfiledir}/../..
includedir=\${prefix}/include
libdir=\${prefix}/lib

Name: chultarvi
Description: A licence-note scanner whose every answer is proved (x86-64)
Version: $version
Cflags: -I\${includedir}
Libs: -L\${libdir} -lchultarvi
END

cat >"$work/chultarvi-config.cmake" <<'END'
# The target chultarvi::chultarvi: the header and the archive of the tree that this file stands in.
if(CMAKE_SYSTEM_PROCESSOR AND NOT CMAKE_SYSTEM_PROCESSOR MATCHES "^(x86_64|amd64|AMD64)$")
  set(chultarvi_FOUND FALSE)
  set(chultarvi_NOT_FOUND_MESSAGE "libchultarvi.a is for x86-64, and this build is for ${CMAKE_SYSTEM_PROCESSOR}")
  return()
endif()
if(NOT TARGET chultarvi::chultarvi)
  get_filename_component(chultarvi_PREFIX "${CMAKE_CURRENT_LIST_DIR}/../../.." ABSOLUTE)
  add_library(chultarvi::chultarvi STATIC IMPORTED)
  set_target_properties(chultarvi::chultarvi PROPERTIES
    IMPORTED_LOCATION "${chultarvi_PREFIX}/lib/libchultarvi.a"
    INTERFACE_INCLUDE_DIRECTORIES "${chultarvi_PREFIX}/include")
  unset(chultarvi_PREFIX)
endif()
END

# before 1.0 a new minor version may change calls
cat >"$work/chultarvi-config-version.cmake" <<END
set(PACKAGE_VERSION $version)
set(PACKAGE_VERSION_COMPATIBLE FALSE)
set(PACKAGE_VERSION_EXACT FALSE)
if(PACKAGE_FIND_VERSION VERSION_EQUAL PACKAGE_VERSION)
  set(PACKAGE_VERSION_EXACT TRUE)
endif()
if("\${PACKAGE_FIND_VERSION_MAJOR}.\${PACKAGE_FIND_VERSION_MINOR}" STREQUAL "${version%.*}"
   AND NOT PACKAGE_FIND_VERSION VERSION_GREATER PACKAGE_VERSION)
  set(PACKAGE_VERSION_COMPATIBLE TRUE)
endif()
END

# put SOURCE PLACE MODE: PLACE from the prefix on. The file beside is in the place's own folder, since only there a rename is one step.
put() {
    place=$target/$2
    mkdir -p "${place%/*}" || stop "$place: its folder cannot be made"
    beside=$(mktemp "${place%/*}/.chultarvi.XXXXXX") || stop "$place: its folder cannot be written"
    if ! { cp "$1" "$beside" && chmod "$3" "$beside" && mv -fT "$beside" "$place"; }; then
        stop "$place: cannot be put in place; what was there is unchanged"
    fi
    beside=
    echo "installed $place"
}
put target/chultarvi bin/chultarvi 755
put include/chultarvi.h include/chultarvi.h 644
put "$archive" lib/libchultarvi.a 644
put "$work/chultarvi.pc" lib/pkgconfig/chultarvi.pc 644
put "$work/chultarvi-config.cmake" lib/cmake/chultarvi/chultarvi-config.cmake 644
put "$work/chultarvi-config-version.cmake" lib/cmake/chultarvi/chultarvi-config-version.cmake 644
for book in books/debian*.book; do put "$book" "share/chultarvi/${book##*/}" 644; done
put host/chultarvi.1 share/man/man1/chultarvi.1 644

echo "Chultarvi $version is installed. What to do next:"
case :$PATH: in *":$prefix/bin:"*) ;; *) echo "  PATH=\"$prefix/bin:\$PATH\"" ;; esac
case ${RUN-} in
'') ;;
*) echo "  (the program is for x86-64, and this machine is $(uname -m): run it by $RUN $prefix/bin/chultarvi)" ;;
esac
echo "  chultarvi scan \"$prefix/share/chultarvi/debian-3.book\" NOTE..."
echo "  cc app.c \$(PKG_CONFIG_PATH=\"$prefix/lib/pkgconfig\" pkg-config --cflags --libs chultarvi)"
