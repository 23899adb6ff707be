#!/usr/bin/env bash
# The layout of the Rattle files, before any proof: names those that `rt fmt` would change, and ends with status 1 if there
# are some. It lays out a copy, and changes nothing here. (`rt ci` asks for the layout too, of each crate that it proves.)
set -euo pipefail
cd "$(dirname "$0")/.."
folder=$(mktemp -d)
trap 'rm -rf "$folder"' EXIT
# one folder src/ for all crates, so that one command lays out all of their files
for crate in crates/*/; do
    for part in src specs proofs; do
        if [ -d "$crate$part" ]; then
            mkdir -p "$folder/src/$crate"
            cp -R "$crate$part" "$folder/src/$crate"
        fi
    done
done
(cd "$folder" && rt fmt) > "$folder/said" || { cat "$folder/said" >&2; exit 1; }
if grep '^rt: formatted ' "$folder/said" | sed 's,^rt: formatted src/,not in the layout of rt fmt: ,' >&2; then
    exit 1
fi
