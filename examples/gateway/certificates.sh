#!/bin/sh
# Makes an authority, and a certificate signed by it for each other name: NAME.pem and NAME.key in the current folder. They are
# for tests, and expire after thirty days.
#
#   certificates.sh AUTHORITY NAME..
set -eu
authority=$1
shift

# Makes a key on the curve P-256 and a certificate. The words after the name are options of openssl.
make() {
    name=$1
    shift
    openssl req -x509 -newkey ec -pkeyopt ec_paramgen_curve:P-256 -nodes -days 30 -subj "/CN=$name" \
        -keyout "$name.key" -out "$name.pem" "$@" 2>/dev/null
}

make "$authority"
for end in "$@"; do
    make "$end" -CA "$authority.pem" -CAkey "$authority.key" -addext basicConstraints=critical,CA:FALSE \
        -addext "subjectAltName=DNS:$end"
done
