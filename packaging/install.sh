#!/bin/sh
# Installs the files of this folder in the places of the system; it needs only a shell.
#
#   PREFIX=$HOME/osi ./install.sh     program, library, headers, manual and bindings, below PREFIX (/usr/local)
#   PREFIX=.. ./install.sh --remove   takes them away
#
# DESTDIR goes in front of PREFIX. Relative ones start at the current folder.
set -eu
from_root() {
    case $1 in
        /* | "") printf '%s\n' "$1" ;;
        *) printf '%s\n' "$PWD/$1" ;;
    esac
}
prefix=$(from_root "${PREFIX:-/usr/local}")
root=$(from_root "${DESTDIR:-}")$prefix
cd "$(dirname "$0")"

# All files and links of the four folders.
files() { find bin include lib share \( -type f -o -type l \) -print; }

case ${1-} in
    "")
        files | while IFS= read -r file; do
            mkdir -p "$root/$(dirname "$file")"
            rm -f "$root/$file"
            cp -P "$file" "$root/$file"
        done
        cat <<END
installed below $root
  the program:      PATH=$root/bin:\$PATH
  the library:      export PKG_CONFIG_PATH=$root/lib/pkgconfig
                    a program that links the shared one finds it by ldconfig, if $root/lib is among the loader's folders,
                    or by -Wl,-rpath,$root/lib, or by LD_LIBRARY_PATH=$root/lib
  a first program:  cc -std=c99 examples/hello.c \$(pkg-config --cflags osi-session) $root/lib/libosi-session.a -o hello
END
        ;;
    --remove)
        files | while IFS= read -r file; do
            rm -f "$root/$file"
        done
        # Also removes what pip left next to the package that it read.
        rm -rf "$root/share/osi-session" "$root/share/osi"
        rmdir "$root/lib/cmake/osi-session" 2>/dev/null || true
        ;;
    *)
        sed -n '2,/^set/s/^# \{0,1\}//p' "$0" >&2
        exit 2
        ;;
esac
