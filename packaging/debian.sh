# What scripts/dist makes of an installation for Debian, as its policy and lintian want packages: read by scripts/dist.
# The version as Debian orders it, without and with the number of the packaging, and the number alone.
of_debian=$(scripts/version --debian)
debian=$of_debian-1
number=$(scripts/version --number)
maintainer=$(packaging/maintainer) || true
homepage=$(scripts/version --address)
libdir=/usr/lib/x86_64-linux-gnu

# The newest version of the C library that a file asks for.
libc_of() { objdump -T "$1" | grep -o 'GLIBC_[0-9.]*' | cut -d _ -f 2 | sort -Vu | tail -n 1; }

# What each package has in addition to its own files: the licences, by name if Debian has them, and both lists of changes.
documents() {
    local folder=$room/$1/usr/share/doc/$1
    mkdir -p "$folder"
    {
        printf 'Format: https://www.debian.org/doc/packaging-manuals/copyright-format/1.0/\nUpstream-Name: osi\n\n'
        printf 'Files: *\nCopyright: 2026 Nuwojira maintainers\nLicense: Expat or Apache-2.0\n'
        printf 'Comment: What is linked into the program and the library, and was written by others:\n'
        sed 's/^$/./; s/^/ /' NOTICES.md
        printf '\nLicense: Expat\n'
        sed -n '3,$p' LICENSE-MIT | sed 's/^$/./; s/^/ /'
        printf '\nLicense: Apache-2.0\n On Debian systems the whole text is in /usr/share/common-licenses/Apache-2.0.\n'
    } >"$folder/copyright"
    gzip -9nc CHANGELOG.md >"$folder/changelog.gz"
    printf 'osi (%s) unstable; urgency=medium\n\n  * What is new: /usr/share/doc/%s/changelog.gz\n\n -- %s  %s\n' "$debian" "$1" \
        "$maintainer" "$(date -uRd "@$SOURCE_DATE_EPOCH")" | gzip -9n >"$folder/changelog.Debian.gz"
}

# control NAME ARCHITECTURE DEPENDS SECTION MORE DESCRIPTION LONG
control() {
    local top=$room/$1
    documents "$1"
    mkdir -p "$top/DEBIAN"
    strip_all "$top"
    local size=$(($(find "$top/usr" -type f -printf '%s\n' | awk '{ sum += $1 } END { print sum + 0 }') / 1024 + 1))
    {
        printf 'Package: %s\nSource: osi\nVersion: %s\nArchitecture: %s\nMaintainer: %s\n' "$1" "$debian" "$2" "$maintainer"
        printf 'Installed-Size: %s\n' "$size"
        [ -z "$3" ] || printf 'Depends: %s\n' "$3"
        printf 'Section: %s\nPriority: optional\n' "$4"
        [ -z "$homepage" ] || printf 'Homepage: %s\n' "$homepage"
        [ -z "$5" ] || printf '%s\n' "$5"
        printf 'Description: %s\n' "$6"
        fmt -w 78 <<<"$7" | sed 's/^/ /'
    } >"$top/DEBIAN/control"
    (cd "$top" && find usr -type f -print0 | sort -z | xargs -0 md5sum >DEBIAN/md5sums)
    settle "$top"
    dpkg-deb --root-owner-group -Zgzip -z9 --build "$top" "$out/$1_${debian}_$2.deb" >/dev/null
    echo "$out/$1_${debian}_$2.deb"
}

# Moves files of the whole installation into a package.
take() {
    local name=$1
    shift
    for path in "$@"; do
        mkdir -p "$room/$name$(dirname "$path")"
        mv "$room/whole$path" "$room/$name$path"
    done
}

# The functions of the shared library, each with the version of this one: a package that links it depends on no newer one.
symbols() {
    printf 'libosi-session.so.%s libosi-session%s #MINVER#\n* Build-Depends-Package: libosi-session-dev\n' "$abi" "$abi"
    nm -D --defined-only "$room/libosi-session$abi$libdir/libosi-session.so.$version" | awk '{ print $3 }' | sed 's/@@/@/' | sort |
        sed -n "/^LIBOSI_SESSION_$abi\(@.*\)\?$/! s/^\(.*\)$/ \1 $of_debian/p; 1i\\ LIBOSI_SESSION_$abi@LIBOSI_SESSION_$abi $of_debian"
}

# What Python compiles of a package is compiled when that is installed, and removed with it: for the folders that follow the name, or
# else for the modules of the system. (If the files are installed into a folder, DPKG_ROOT names that, and nothing is compiled.)
compiled() {
    local name=$1
    shift
    mkdir -p "$room/$name/DEBIAN"
    cat >"$room/$name/DEBIAN/postinst" <<END
#!/bin/sh
set -e
if [ -z "\${DPKG_ROOT-}" ] && command -v py3compile >/dev/null; then
    py3compile -p $name $*
fi
END
    cat >"$room/$name/DEBIAN/prerm" <<END
#!/bin/sh
set -e
if [ -z "\${DPKG_ROOT-}" ] && command -v py3clean >/dev/null; then
    py3clean -p $name
fi
END
    chmod 755 "$room/$name/DEBIAN/postinst" "$room/$name/DEBIAN/prerm"
}

# Pages, examples, and the functions for C as HTML.
take_pages() {
    local folder=$room/osi-session-doc/usr/share/doc/osi-session-doc
    mkdir -p "$folder"
    packaging/render debian "$folder"
    if command -v doxygen >/dev/null; then
        packaging/doxygen.sh "$folder/html"
    else
        echo "dist: there is no doxygen, which makes HTML of osi.h" >&2
    fi
    find "$folder" -type f -name '*.py' -exec sed -i '1s|^#!/usr/bin/env python3|#!/usr/bin/python3|' {} +
    find "$folder" -type f ! -perm /111 -exec chmod 644 {} +
    find "$folder" -type f -perm /111 -exec chmod 755 {} +
}

# The crate as Debian's packages of crates have it: a folder of a local registry, whose files cargo takes as they are.
take_crate() {
    local folder=$room/librust-osi-session-dev/usr/share/cargo/registry/osi-session-$version
    mkdir -p "$folder"
    tar -xzf "$out/osi-session-$version.crate" --strip-components=1 -C "$folder"
    rm -f "$folder/Cargo.toml.orig" "$folder/LICENSE-MIT" "$folder/LICENSE-APACHE" "$folder/NOTICES.md" "$folder/Cargo.lock"
    local checksum
    checksum=$(sha256sum "$out/osi-session-$version.crate" | cut -d ' ' -f 1)
    printf '{"package":"%s","files":{}}\n' "$checksum" >"$folder/.cargo-checksum.json"
}

# The package for Python, as pip would install it from the wheel without a library.
take_python() {
    local folder=$room/python3-osi-session/usr/lib/python3/dist-packages
    mkdir -p "$folder" "$room/pure"
    python3 -c 'import sys; sys.path.insert(0, "bindings/python"); import wheels; wheels.build_wheel(sys.argv[1])' "$room/pure"
    python3 -m zipfile -e "$room/pure"/*.whl "$folder"
    rm -r "$folder"/*.dist-info/licenses "$folder"/*.dist-info/RECORD
    find "$folder" -type f -exec chmod 644 {} +
}

make_packages() {
    DESTDIR=$room/whole PREFIX=/usr LIBDIR=$libdir scripts/install >/dev/null
    gzip -9n "$room/whole/usr/share/man/man1/"*.1 "$room/whole/usr/share/man/man3/"*.3
    sed -i '1s|.*|#!/usr/bin/python3|' "$room/whole/usr/bin/osi-capture" "$room/whole/usr/bin/osi-ladders"
    mv "$room/whole/usr/share/zsh/site-functions" "$room/whole/usr/share/zsh/vendor-completions"
    take osi /usr/bin /usr/share/osi /usr/share/man/man1 /usr/share/bash-completion /usr/share/zsh /usr/share/fish
    take "libosi-session$abi" "$libdir/libosi-session.so.$abi" "$libdir/libosi-session.so.$version"
    take libosi-session-dev /usr/include /usr/share/man/man3 "$libdir"
    mkdir -p "$room/libosi-session$abi/DEBIAN"
    echo "libosi-session $abi libosi-session$abi (>= $of_debian)" >"$room/libosi-session$abi/DEBIAN/shlibs"
    symbols >"$room/libosi-session$abi/DEBIAN/symbols"
    echo "activate-noawait ldconfig" >"$room/libosi-session$abi/DEBIAN/triggers"
    local long="An end of a byte connection takes the octets that came and returns those that are to be sent. It speaks X.225 version 2 over
the transport classes 0 and 2 of X.224 in TPKT packets (RFC 1006), opens no socket, and is proved."
    compiled osi /usr/share/osi
    control osi amd64 "libc6 (>= $(libc_of "$room/osi/usr/bin/osi")), python3 (>= 3.9)" net $'Recommends: tshark\nSuggests: osi-session-doc' \
        "lister of captures of the OSI session protocol" \
        "It lists captures of X.225 version 2 over the transport classes 0 and 2 of X.224 in TPKT packets (RFC 1006), also those that tshark
reads. It says which side of a capture first broke the protocol, runs scripts of two ends, and draws what they did."
    control "libosi-session$abi" amd64 "libc6 (>= $(libc_of "$room/libosi-session$abi$libdir/libosi-session.so.$version"))" libs \
        "Multi-Arch: same" "OSI session layer, one end (shared library)" "$long"
    control libosi-session-dev amd64 "libosi-session$abi (= $debian)" libdevel $'Multi-Arch: same\nSuggests: osi-session-doc' \
        "OSI session layer, one end (development files)" "$long This package has the headers for C and C++ and the static library."
    take_pages
    control osi-session-doc all "" doc "Multi-Arch: foreign" "OSI session layer, one end (pages and examples)" \
        "$long This package has the guide, pages on the program osi and on judging captures, examples in C, C++, Python and Rust, and the
functions for C as HTML."
    take_python
    compiled python3-osi-session
    control python3-osi-session all "python3 (>= 3.9), libosi-session$abi (>= $of_debian)" python "" \
        "OSI session layer, one end (package for Python 3)" "$long This package calls the library, and goes over TCP by asyncio."
    [ -e "$out/osi-session-$version.crate" ] || return 0
    take_crate
    local name provides=""
    for name in "${number%%.*}" "${number%.*}" "$number"; do
        provides="$provides${provides:+, }librust-osi-session-$name-dev (= $debian)"
    done
    control librust-osi-session-dev all "libosi-session-dev (>= $of_debian)" rust "Provides: $provides" \
        "OSI session layer, one end (crate for Rust)" \
        "$long This package has the sources of the crate osi-session, which links the library."
}
