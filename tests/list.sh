#!/usr/bin/env bash
# Tries `./list` on a copy of the repository: what it lists, what it refuses, and that it never runs a program whose source
# changed since. Its last line is 'N passed, M failed'. It takes the program as `./programs` left it, so run it after that.
set -uo pipefail
cd "$(dirname "$0")/.." || exit 1
room=$(mktemp -d)
trap 'rm -rf "$room"' EXIT
chmod 755 "$room"
copy=$room/copy
mkdir "$copy"
# What `rt` keeps for its next check is large, and not needed here.
tar -c --exclude='crates/*/out/incremental' crates crates.txt list samples target/bin tools/building.sh | tar -x -C "$copy"
sample=$copy/samples/boundary_damaged.rle
passed=0 failed=0

# Runs `./list` by the words given, in a directory; its output, messages and status are kept.
list() {
    local dir=$1
    shift
    (cd "$dir" && "$@") >"$room/out" 2>"$room/err" </dev/null
    status=$?
}

# Counts one trial: its name, then a test of what the last run left.
try() {
    local name=$1
    shift
    if "$@"; then
        passed=$((passed + 1))
        echo "list: $name"
    else
        failed=$((failed + 1))
        echo "FAILED: $name: status $status"
        sed 's/^/  /' "$room/out" "$room/err" | tail -n 20
    fi
}

listed() { [ "$status" = 0 ] && cmp -s "$room/out" "$room/right" && [ ! -s "$room/err" ]; }
# Nothing on standard output, this status, and these words on standard error.
refused() { [ "$status" = "$1" ] && [ ! -s "$room/out" ] && grep -qF -- "$2" "$room/err"; }
# The new program was run, and a line on standard error names each crate that was proved: so many.
rebuilt() { [ "$status" = 0 ] && [ "$(cat "$room/out")" = "built anew" ] && [ "$(grep -c '^list: .* proved ([0-9]* s)$' "$room/err")" = "$1" ]; }
gone() { [ ! -e "$1" ]; }

"$copy/target/bin/listing" <"$sample" >"$room/right"
"$copy/target/bin/listing" <"$copy/samples/sideways.rle" | cat "$room/right" - >"$room/both"
try "two samples list as the README shows them" diff "$room/both" <(sed -n '/^    type 9/,/^$/s/^    //p' README.md)

# What the offsets skip is blank in the other, which has no offset.
"$copy/target/bin/listing" <"$copy/samples/boundary.rle" >"$room/whole"
"$copy/target/bin/listing" <"$copy/samples/margin.rle" >"$room/skipped"
try "the sample with its margin skipped lists as the whole one" cmp "$room/whole" "$room/skipped"
# The packed one is shorter, and says so in its first line.
"$copy/target/bin/listing" <"$copy/samples/boundary_packed.dat" | tail -n +2 >"$room/packed"
try "the packed sample has the rows of the other" cmp <(tail -n +2 "$room/whole") "$room/packed"

list "$copy" ./list samples/boundary_damaged.rle
try "a file, and nothing but its listing" listed
list / "$copy/list" "${sample#/}"
try "a file, from another directory" listed
ln -s "$copy/list" "$room/link"
list "$room" ./link "$sample"
try "called by a link" listed
cp "$sample" "$room/-two words.rle"
list "$room" copy/list "-two words.rle"
try "a name with a dash and a blank" listed

list "$copy" ./list
try "no argument" refused 2 usage
list "$copy" ./list "$sample" "$sample"
try "two arguments" refused 2 usage
list "$copy" ./list "$room/missing.rle"
try "a missing file" refused 2 "no such file: $room/missing.rle"
list "$copy" ./list ''
try "an empty name" refused 2 "no such file"
list "$copy" ./list samples
try "a directory" refused 2 "a directory"

cp "$sample" "$room/secret.rle"
chmod 000 "$room/secret.rle"
if [ "$(id -u)" != 0 ]; then
    list "$copy" ./list "$room/secret.rle"
    try "an unreadable file" refused 2 "cannot be read"
elif setpriv --reuid=65534 --regid=65534 --clear-groups test -x "$copy/list" 2>/dev/null; then
    list "$copy" setpriv --reuid=65534 --regid=65534 --clear-groups ./list "$room/secret.rle"
    try "an unreadable file, as nobody" refused 2 "cannot be read"
else
    echo "list: an unreadable file: not tried, as root can read any and cannot be nobody here"
fi

if [ -e /proc/self/mem ]; then
    list "$copy" ./list /proc/self/mem
    try "a file that breaks off" refused 2 "could not be read to its end"
fi
if [ -e /dev/full ]; then
    (cd "$copy" && ./list "$sample") >/dev/full 2>"$room/err" </dev/null
    status=$?
    : >"$room/out"
    try "a listing that nothing can take" refused 2 "or the listing not be written"
fi

mkdir "$room/bare"
for command in bash dirname readlink mktemp mkdir rm tail; do ln -s "$(command -v $command)" "$room/bare"; done
list "$copy" env PATH="$room/bare" ./list "$sample"
try "no rt" refused 2 "rt is not on the PATH"

# A changed source is seen, and the program of before is not run.
echo 'fn' >>"$copy/crates/listing/src/main.rt"
list "$copy" ./list "$sample"
try "a source that does not compile" refused 1 "could not be built"
try "the end of what rt said" grep -q '^src/main.rt:.*error' "$room/err"
try "the program of before is gone" gone "$copy/target/bin/listing"
cp -a crates/listing/src/main.rt "$copy/crates/listing/src/main.rt"

# From here on a stand-in for rt, which builds in no time. As rt does, it runs what it built.
mkdir "$room/stand-in"
cat >"$room/stand-in/rt" <<'EOF'
#!/bin/sh
if [ -e out/listing.stamp ] && [ -e out/listing ]; then
    echo "rt: nothing has changed since the last proved build, by out/listing.stamp, so nothing is checked now" >&2
else
    printf '#!/bin/sh\necho built anew\n' >out/listing
    chmod +x out/listing
    touch out/listing.stamp
    for crate in text listing; do printf 'crate %s: modules loaded=1 checked=1\nlogic=proved functions=1\n' $crate >&2; done
fi
out/listing
EOF
chmod +x "$room/stand-in/rt"
PATH=$room/stand-in:$PATH
rm -f "$copy/crates/listing/out/listing.stamp"
list "$copy" ./list "$sample"
try "a program that is built anew" rebuilt 2
list "$copy" ./list "$sample"
try "a program that was built anew before" rebuilt 0
rm "$copy/crates/listing/out/listing"
list "$copy" ./list "$sample"
try "a program that was removed" rebuilt 2
rm "$copy/target/bin/listing"
list "$copy" ./list "$sample"
try "a program that was removed where it is run" rebuilt 0
printf '#!/bin/sh\nexit 1\n' >"$room/stand-in/rt"
list "$copy" ./list "$sample"
try "an rt that fails and says nothing" refused 1 "could not be built"
try "the program of before is gone again" gone "$copy/target/bin/listing"

echo "$passed passed, $failed failed"
[ "$failed" -eq 0 ] && [ "$passed" -gt 0 ]
