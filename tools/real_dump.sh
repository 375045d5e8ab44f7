#!/usr/bin/env bash
# Dumps the heap of a Java virtual machine that runs checks/Planted.java, with a leak and six planted objects of known
# strength.
#
#   tools/real_dump.sh FILE [MEGABYTES]
#
# FILE must not be there yet. Without MEGABYTES the dump has a few MB; with it, 1 to 2000, about that many MB of
# small objects, tens of millions of them at 1000. Unreachable objects are dumped too, and no collection comes before the dump.
#
# Nothing is written but FILE, which appears when it is whole, and a temporary folder, which is removed at the end.
# Needed are bash, coreutils and a JDK of version 17: java, javac, jcmd.
set -euo pipefail

complain() {
    printf 'real_dump: %s\n' "$*" >&2
}

fail() {
    complain "$@"
    exit 1
}

(($# == 1 || $# == 2)) || { complain 'usage: tools/real_dump.sh FILE [MEGABYTES]'; exit 64; }
megabytes=${2:-2}
if [[ ! $megabytes =~ ^[1-9][0-9]{0,3}$ ]] || ((megabytes > 2000)); then
    complain "no number from 1 to 2000: $megabytes"
    exit 64
fi
for tool in java javac jcmd; do
    type -P "$tool" >/dev/null || fail "there is no $tool"
done
[[ ! -e $1 ]] || fail "there is a file $1 already"
folder=$(cd -P "$(dirname "$1")" 2>/dev/null && pwd) || fail "there is no folder for $1"
dump=$folder/$(basename "$1")

here=$(cd -P "$(dirname "$(readlink -f "${BASH_SOURCE[0]}")")" && pwd)
room=$(mktemp -d)
part=.real_dump.$$
machine=
leave() {
    [[ -z $machine ]] || kill "$machine" 2>/dev/null || true
    [[ -z $machine ]] || wait "$machine" 2>/dev/null || true
    rm -rf "$room" "${folder:?}/$part"
}
trap leave EXIT
trap 'exit 130' INT TERM

# Says what failed, with what the machine or the tool said to it.
fail_with() {
    complain "$1: $(tail -n 5 "$2" | tr '\n' ' ')"
    exit 1
}

javac -J-XX:-UsePerfData -Xlint:none -d "$room/classes" "$here/../checks/Planted.java" >"$room/complaints" 2>&1 ||
    fail_with 'Planted.java was not compiled' "$room/complaints"

# All objects have room among the young ones, so that no collection is needed; the rest of the heap isn't touched. An
# object takes less in the heap than in the dump.
young=$((megabytes + megabytes / 4 + 128))
heap=$((young + young / 4 + 128))
mkfifo "$room/in" "$room/out"
(
    cd "$room"
    exec java -XX:-UsePerfData -XX:ActiveProcessorCount=2 -XX:+UseG1GC -XX:MetaspaceSize=256m -Xms"${heap}m" \
        -Xmx"${heap}m" -Xmn"${young}m" -cp classes Planted $((megabytes * 1000000)) <in >out 2>complaints
) &
machine=$!
exec 3>"$room/in" 4<"$room/out"

if ! read -r -t 600 line <&4 || [[ $line != ready ]]; then
    fail_with 'the machine did not get ready' "$room/complaints"
fi
# The machine is told a name without spaces, from its own folder on.
ln -s "$folder" "$room/folder"
jcmd -J-XX:-UsePerfData "$machine" GC.heap_dump -all "folder/$part" >"$room/said" 2>&1 ||
    fail_with 'the heap was not dumped' "$room/said"
[[ -s $folder/$part ]] || fail_with 'the heap was not dumped' "$room/said"
echo >&3
read -r -t 60 line <&4 || fail_with 'the machine ended too early' "$room/complaints"
[[ $line == 'collections 0' ]] || fail "the dump can't be relied on: $line"
wait "$machine" || fail_with 'the machine ended badly' "$room/complaints"
machine=
mv "$folder/$part" "$dump"
