#!/usr/bin/env bash
# Builds static libraries for C and Rust on x86-64 Linux, where they are missing or older than their sources: `front/archive.sh rack`
# leaves target/staticlib/librack.a. A crate that is a library for other crates has its exports in another, of its name with _c behind it.
set -uo pipefail
here=$(dirname "$(dirname "$(readlink -f "$0")")")
. "$here/front/build.sh"

for name; do
  crate=$name
  if [ -d "$here/crates/${name}_c" ]; then crate=${name}_c; fi
  build archive "$crate" || exit 2
  mkdir -p "$here/target/staticlib" && cp "$(built_of "$crate")" "$here/target/staticlib/lib$name.a" || exit 2
done
