#!/usr/bin/env bash
# Makes the release (release/) from the program that the gate built of these sources.
#
#   tools/release.sh [PROGRAM]
#
# PROGRAM is crates/hdesk/out/hdesk where it isn't given. Run `rt ci` first, and change no source between: the release says of which
# sources it is. It needs `rt`, for the kit's line. Where anything fails the release stays as it was.
set -euo pipefail

top=$(dirname "$(dirname "$(readlink -f "${BASH_SOURCE[0]}")")")
program=$(readlink -f "${1:-$top/crates/hdesk/out/hdesk}")
# shellcheck source=tools/release_files.bash
source "$top/tools/release_files.bash"

fail() {
    echo "release: $*" >&2
    exit 1
}

[[ -x $program ]] || fail "there is no program $program; rt ci builds it"
shopt -s nullglob
newer=$(find "$top"/crates/*/{src,specs,proofs} "$top/crates.txt" -newer "$program" -print -quit)
shopt -u nullglob
[[ -z $newer ]] || fail "${newer#"$top"/} is newer than the program; run rt ci first"
version=$("$program" --version </dev/null)
[[ $version =~ ^hdesk\ [0-9]+\.[0-9]+\.[0-9]+$ ]] || fail "the program doesn't tell its version: $version"
kit=$(rt version)

folder=$(mktemp -d "$top/release.XXXXXX")
trap 'rm -rf "$folder"' EXIT
gzip -9nc "$program" >"$folder/hdesk.gz"
sum_sources >"$folder/sources.sha256"
cat >"$folder/manifest" <<END
version ${version#hdesk }
kit $kit
program $(sum_of <"$program")
sources $(sum_of <"$folder/sources.sha256")
END
mkdir -p "$top/release"
mv "$folder"/* "$top/release"
