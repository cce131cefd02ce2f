#!/usr/bin/env bash
# Tries the wrong bodies that the gate has no time for: each edit of a crate's folder here must be refused, as those of its must-fail/ are.
# Names of crates as arguments, or none for all. It works on a copy of the repository, and ends with the status of `rt must-fail`.
set -eu
here=$(cd "$(dirname "$0")" && pwd)
copy=$(mktemp -d)
trap 'rm -rf "$copy"' EXIT
git clone --quiet "$here/../.." "$copy/repository"
crates=("$@")
if [ ${#crates[@]} -eq 0 ]; then
    mapfile -t crates < <(cd "$here" && ls -d */ | tr -d /)
fi
for crate in "${crates[@]}"; do
    mkdir -p "$copy/repository/crates/$crate/must-fail"
    rm -f "$copy/repository/crates/$crate/must-fail/"*.edit
    cp "$here/$crate/"*.edit "$copy/repository/crates/$crate/must-fail/"
done
cd "$copy/repository"
rt must-fail "${crates[@]}"
