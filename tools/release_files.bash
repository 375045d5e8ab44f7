# What `hdesk`, `test` and `tools/release.sh` know of a release: the files of release/, and how the sources are summed. They set
# `top` to the top of the repository before they read this.
# shellcheck disable=SC2154
#
# release/hdesk.gz         the program, compressed
# release/manifest         four lines: `version V`, `kit LINE`, `program SHA256`, `sources SHA256`
# release/sources.sha256   a line for each file of crates/ and for crates.txt, as `sha256sum` prints it

# Prints the word of the manifest behind the word $1.
release_word() { sed -n "s/^$1 //p" "$top/release/manifest"; }

# Prints the checksum of standard input.
sum_of() {
    local sum
    sum=$(sha256sum) && printf '%s\n' "${sum%% *}"
}

# Prints a line for each source, by name: its checksum and its path. What `rt` makes (out/) is none.
sum_sources() (
    cd "$top" && find crates crates.txt -path 'crates/*/out' -prune -o -type f -print0 | LC_ALL=C sort -z | xargs -0 sha256sum --
)

# Prints the paths of the sources that the release was not made of: changed, new or missing.
changed_sources() {
    { diff <(sum_sources) "$top/release/sources.sha256" || true; } | sed -n 's/^[<>] [0-9a-f]* [ *]//p' | LC_ALL=C sort -u
}
