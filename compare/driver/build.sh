#!/bin/sh
# Builds the driver: build.sh [FOLDER], or RON_SRC=FOLDER build.sh, where FOLDER
# holds ron 0.12.3's published files (ser/mod.rs, parse.rs and so on).
set -eu

here=$(cd "$(dirname "$0")" && pwd)
given=${1:-${RON_SRC:-}}
if [ -z "$given" ]; then
    echo "usage: build.sh FOLDER (with ron 0.12.3's published files)" >&2
    exit 2
fi
if [ ! -e "$given/ser/mod.rs" ] && [ -e "$given/src/ser/mod.rs" ]; then
    given=$given/src
fi
given=$(cd "$given" && pwd)

# The files are ron 0.12.3's, byte for byte.
sums=$here/ron-0.12.3.sha256
(cd "$given" && sha256sum --quiet --check "$sums")

# The crate `ron`: the stubs, then the published files beside them.
crate=$here/build/ron
rm -rf "$crate"
mkdir -p "$crate"
cp -R "$here/stubs/ron/." "$crate/"
while read -r _ file; do
    cp "$given/$file" "$crate/src/$file"
done <"$sums"
(cd "$crate/src" && sha256sum --quiet --check "$sums")

# Debian's folder of crate sources, if it is there; CRATES=FOLDER names another,
# CRATES= (empty) leaves cargo to its own source.
crates=${CRATES-$(dpkg -L librust-serde-dev 2>/dev/null | grep -m 1 '/registry$' || true)}
set -- build --release -j "${JOBS:-1}" --manifest-path "$here/Cargo.toml" --target-dir "$here/build/target"
if [ -n "$crates" ]; then
    set -- "$@" --offline \
        --config 'source.crates-io.replace-with="debian"' \
        --config "source.debian.directory=\"$crates\""
fi
cargo "$@"
cp "$here/build/target/release/driver" "$here/build/driver"
echo "$here/build/driver"
