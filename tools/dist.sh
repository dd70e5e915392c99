#!/bin/sh
# Makes dist/ anew: proves and builds the library and the programs, and says whether the sums agree with those of the dist/ that stood there.
# `sh tools/dist.sh --twice` builds everything a second time from nothing, and says whether it is the same bytes.
cd "$(dirname "$0")/.." || exit 1
PROGRAMS="check_edition rescue_file"
stop() { echo "tools/dist.sh: $*"; exit 1; }
command -v rt >/dev/null || stop "there is no rt here, so nothing was built"
[ "$(uname -sm)" = "Linux x86_64" ] || stop "this is $(uname -sm); the release is built on x86-64 Linux"
[ -z "$(git status --porcelain -- crates crates.txt include)" ] || stop "the sources differ from the last commit: commit them first"

# proves and links a program: without standard input it only has to end; what it answers doesn't matter here
program() { (cd "crates/$1" && rt run -- --version </dev/null >"$log/$1" 2>&1); [ -x "crates/$1/out/$1" ] || { tail -n 20 "$log/$1"; stop "$1 was not built"; }; }

build() {
    rm -rf crates/shupkelen/out/libshupkelen.a
    (cd crates/shupkelen && rt lib) >"$log/library" 2>&1 || { tail -n 20 "$log/library"; stop "the library was not built"; }
    for p in $PROGRAMS; do rm -f "crates/$p/out/$p"; program "$p"; done
}

log=$(mktemp -d) || exit 1
trap 'rm -rf "$log"' EXIT
build
if [ "$1" = --twice ]; then
    sha256sum crates/shupkelen/out/libshupkelen.a $(for p in $PROGRAMS; do echo "crates/$p/out/$p"; done) >"$log/first"
    build
    if sha256sum --quiet -c "$log/first"; then echo "built twice: the same bytes"; else stop "built twice: other bytes"; fi
fi

version=$(cat VERSION)
[ -f dist/SHA256SUMS ] && cp dist/SHA256SUMS "$log/before"
rm -rf dist
mkdir -p dist/bin dist/include dist/lib/pkgconfig dist/share/man/man1
cp crates/shupkelen/out/libshupkelen.a dist/lib/
for p in $PROGRAMS; do cp "crates/$p/out/$p" dist/bin/; done
cp include/shupkelen.h dist/include/
cp docs/*.1 dist/share/man/man1/
cp NOTICE LICENSE dist/
sed "s/@VERSION@/$version/" tools/shupkelen.pc.in >dist/lib/pkgconfig/shupkelen.pc
printf 'shupkelen %s\nmade of the commit %s\nwith %s\nfor x86-64 Linux, processors of the level x86-64-v2 (2009) and later\n' "$version" "$(git rev-parse HEAD)" "$(rt version | head -n 1)" >dist/VERSION
(cd dist && find . -type f ! -name SHA256SUMS ! -name VERSION | LC_ALL=C sort | xargs sha256sum >SHA256SUMS)
if [ -f "$log/before" ]; then
    if cmp -s "$log/before" dist/SHA256SUMS; then echo "dist/: the same bytes as before"; else echo "dist/: other bytes than before"; diff "$log/before" dist/SHA256SUMS; fi
fi
du -sh dist
