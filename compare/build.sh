#!/bin/sh
# build.sh NUMBAT DIR: builds the harness in DIR from a checkout of numbat at e8abf32b97. Nothing of numbat is copied: DIR/orig is a link to it.
# CRATES, if set, is a folder of vendored crates (such as Debian's librust-*-dev packages install), for a machine that doesn't reach crates.io.
set -e
here=$(cd "$(dirname "$0")" && pwd)
numbat=$(cd "$1" && pwd)
mkdir -p "$2"
dir=$(cd "$2" && pwd)
(cd "$numbat" && sha256sum -c --quiet "$here/numbat.sha256") || { echo "$numbat isn't numbat at e8abf32b97" >&2; exit 1; }
cp -rp "$here/harness/." "$dir/"
rm -f "$dir/orig"
ln -s "$numbat/numbat/src" "$dir/orig"
if [ -n "$CRATES" ]; then
  mkdir -p "$dir/.cargo"
  printf '[source.crates-io]\nreplace-with = "here"\n[source.here]\ndirectory = "%s"\n[net]\noffline = true\n' "$CRATES" > "$dir/.cargo/config.toml"
fi
(cd "$dir" && cargo build --release --quiet)
echo "$dir/target/release/harness"
