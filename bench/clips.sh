#!/bin/sh
# clips.sh FOLDER: puts CLIPS 6.30 into FOLDER: headers in include/clips, libclips.a compiled for x86-64 at -O3 from the source in Debian's archive, without the
# functions for profiling and debugging. Debian's own libclips.a is compiled without optimization: it takes twice the instructions and would be no fair peer.
# Needs apt-get (no root), tar, and the compiler of the variable CC.
set -eu
folder=${1:?usage: clips.sh FOLDER}
mkdir -p "$folder"
cd "$folder"
sum=66ba5f8f18f95cee162d04efd5ff9c2e1043d9dd97dcbb16db440806410c6784
source=clips_6.30.orig.tar.gz

own_apt() {
    apt-get -o "Dir::Etc::SourceList=$PWD/sources.list" -o Dir::Etc::SourceParts=/dev/null -o "Dir::State::Lists=$PWD/lists" \
        -o Dir::Cache::pkgcache= -o Dir::Cache::srcpkgcache= "$@"
}

# Sources of packages are seldom in apt's lists. So we keep lists of our own here, made from the places where apt already finds Debian's packages.
fetch() {
    mkdir -p lists/partial
    keys=/usr/share/keyrings/debian-archive-keyring.gpg
    [ -f "$keys" ] && signed="[signed-by=$keys]" || signed=
    apt-get indextargets --format "\$(ORIGIN) deb-src $signed \$(REPO_URI) \$(RELEASE) \$(COMPONENT)" 'Identifier: Packages' |
        sed -n 's/^Debian \(.* main\)$/\1/p' | sort -u >sources.list
    own_apt update >log 2>&1
    # The original source is all that is needed; Debian's changes to it may be missing from a mirror.
    own_apt source --download-only clips >>log 2>&1 || true
}

[ -f "$source" ] || fetch
echo "$sum  $source" | sha256sum -c --quiet || { cat log; exit 1; }
rm -rf include objects clips_core_source_630
tar xzf "$source" --no-same-owner
mkdir -p include objects
mv clips_core_source_630/core include/clips
# shellcheck disable=SC2016
for file in include/clips/*.c; do
    [ "$(basename "$file")" = main.c ] || echo "$file"
done | xargs -P 2 -I{} sh -c \
    '"$0" -O3 -w -std=gnu99 -fno-strict-aliasing -DLINUX=1 -DPROFILING_FUNCTIONS=0 -DDEBUGGING_FUNCTIONS=0 -c "$1" -o "objects/$(basename "$1" .c).o"' "${CC:-gcc}" {}
ar rcs libclips.a objects/*.o
