#!/usr/bin/env bash
# Tries the C library as its users do: the header with every compiler, the example on every sample and on files that are cut off,
# the bound of the stack, and `./lib` itself. What must be printed comes from the second program, not from the library. Run it
# after `./lib` and after the second program is built. Its last line is 'c: N passed, M failed'.
set -uo pipefail
cd "$(dirname "$0")/.." || exit 1
room=$(mktemp -d)
trap 'rm -rf "$room"' EXIT
passed=0 failed=0
second=tests/second/target/release/second
strict=(-Wall -Wextra -Wpedantic -Werror)

# Counts one trial: its name, then a test. What the test says is shown where it fails.
try() {
    local name=$1
    shift
    if "$@" >"$room/said" 2>&1; then
        passed=$((passed + 1))
        [ -n "${quiet:-}" ] || echo "c: $name"
    else
        failed=$((failed + 1))
        echo "FAILED: $name"
        tail -n 20 "$room/said" | sed 's/^/  /'
    fi
}

for tool in gcc clang valgrind; do
    command -v "$tool" >/dev/null || { apt-get update -qq && apt-get install -y -qq "$tool"; }
done
command -v g++ >/dev/null || { apt-get update -qq && apt-get install -y -qq g++; }

# The header alone, and each of its macros.
cat >"$room/alone.c" <<'END'
#include "ingr.h"
#include "ingr.h"
size_t alone(const uint8_t *bytes);
size_t alone(const uint8_t *bytes)
{
    return INGR_NUMBER(bytes, INGR_HEADER_PPL) + INGR_PIXEL(bytes, 1) + INGR_PIXEL_BYTES(2, 3) +
           INGR_WRITE_ROOM(2, 3) + INGR_MOVE_ROOM(1024, 2, 3) + INGR_MOVE_STACK + ingr_header(bytes, 0, NULL, 0);
}
END
cp "$room/alone.c" "$room/alone.cc"
for standard in c89 c99 c11 c17; do
    for compiler in gcc clang; do
        try "ingr.h as $standard, $compiler" "$compiler" -std=$standard "${strict[@]}" -Itarget/c -c -o "$room/alone.o" "$room/alone.c"
    done
done
for standard in c++98 c++17; do
    for compiler in g++ clang++; do
        try "ingr.h as $standard, $compiler" "$compiler" -std=$standard "${strict[@]}" -Itarget/c -c -o "$room/alone.o" "$room/alone.cc"
    done
done

# A constant for each number that docs/FORMAT.md has, no number twice, and no number that it does not have. (29 is of the C
# functions alone.)
numbers() { sed -nE "s/^#define INGR_($1[A-Z_]+) ([0-9]+)$/\2/p" include/ingr.h | sort -n; }
tabled() { sed -n "/^## $1/,/^## /p" docs/FORMAT.md | sed -nE 's/^\| ([0-9]+) \|.*/\1/p' | sort -nu; }
rejections() { sed -n '/^\/\* Rejections/,/^ \* Marks of/p' include/ingr.h | sed -nE 's/^#define INGR_[A-Z_]+ ([0-9]+)$/\1/p' | sort -n; }
same() { [ -s "$1" ] && diff "$1" "$2"; }
tabled Statuses >"$room/right" && numbers MARK_ >"$room/mine"
try "marks as in docs/FORMAT.md" same "$room/right" "$room/mine"
{ tabled Rejections && echo 29; } | sort -nu >"$room/right" && rejections >"$room/mine"
try "rejections as in docs/FORMAT.md" same "$room/right" "$room/mine"

# The archive has the functions that the header declares, and no other of the name.
sed -nE 's/^uint32_t (ingr_[a-z_]+)\(.*/\1/p' target/c/ingr.h | sort >"$room/right"
nm -g --defined-only target/c/libingr.a 2>/dev/null | sed -nE 's/.* T (ingr_[a-z_]+)$/\1/p' | sort >"$room/mine"
try "the archive has what the header declares" same "$room/right" "$room/mine"
try "target/c/ingr.h is include/ingr.h" cmp include/ingr.h target/c/ingr.h
# What it needs from outside: a program without a C library has to bring each name.
printf 'memcpy\nmemset\n' >"$room/right"
nm -u target/c/libingr.a 2>/dev/null | sed -nE 's/^ +U (\w+)$/\1/p' | sort -u >"$room/mine"
try "the archive needs memcpy and memset alone" same "$room/right" "$room/mine"

# The example, by the lines that README shows.
build() {
    local lines
    lines=$(sed -nE "s/^    ($1 .*examples\/minimal\.c.*)$/\1/p" README.md)
    [ "$(wc -l <<<"$lines")" = 1 ] && [ -n "$lines" ] && rm -f target/c/minimal && sh -c "$lines" && mv target/c/minimal "$room/minimal_$1"
}
for compiler in gcc clang; do
    try "the example, without a warning, $compiler" "$compiler" -std=c99 "${strict[@]}" -Itarget/c -c -o "$room/alone.o" examples/minimal.c
    try "the example by README's line, $compiler" build "$compiler"
done

# What the example must print of a file, from the listing and the colors of the second program; then its exit status.
expected() {
    local file=$1
    "$second" fake-listing <"$file" >"$room/listing" && "$second" fake-header <"$file" >"$room/colors" || return 1
    awk -v colors="$room/colors" '
        BEGIN {
            split("it runs past the file|wrong identifier|too few words to follow|wrong line number|pixel offset past the line|wrong count of words|" \
                "runs total too much|runs total too little|it follows a lost line|a spare bit is set", reason, "|")
            while ((getline line <colors) > 0) { split(line, part, ": "); color[part[1]] = part[2] }
        }
        NR == 1 && $1 == "refused" { print "rejected " $2; print "status 2"; exit }
        NR == 1 { ppl = $4; nol = $6; answer = $8; print ppl " x " nol ", " $10 " good"; next }
        { mark = $2; sub(":", "", mark) }
        mark > 0 { print "line " $1 " refused: " reason[mark] }
        $1 == int(nol / 2) + 1 { value = $(3 + int(ppl / 2)); middle = mark; at = $1 }
        END {
            if (ppl == "") exit
            # The second program lists colors up to 300. Above that there is none without an Environ-V table, and no sample has one.
            has = value in color && color[value] !~ /refused/
            print "middle pixel " (middle > 0 ? "not shown: line " at " is refused" : value (has ? ", color " color[value] : ", no color"))
            print "status " answer
        }' "$room/listing"
}

# Whether the example prints what it must; the words before it run it.
shows() {
    local file=$1
    shift
    expected "$file" >"$room/right" && [ -s "$room/right" ] || return 1
    "$@" "$file" >"$room/mine" 2>"$room/errors"
    echo "status $?" >>"$room/mine"
    cat "$room/errors"
    [ ! -s "$room/errors" ] && diff "$room/right" "$room/mine"
}
for file in samples/* tests/peer/*.{cot,rle,ingr}; do
    for compiler in gcc clang; do try "$file, $compiler" shows "$file" "$room/minimal_$compiler"; done
done

sed -n '/^    16 x 6/,/^$/s/^    //p' README.md >"$room/right"
as_shown() { [ "$(wc -l <"$room/right")" -ge 3 ] && diff <(sed '/^$/d' "$room/right") <("$room/minimal_gcc" samples/boundary_damaged.rle); }
try "the example prints what README shows" as_shown

# Complaints: nothing on standard output, and status 2.
complains() {
    "$room/minimal_gcc" "$@" >"$room/mine" 2>"$room/errors"
    [ $? = 2 ] && [ ! -s "$room/mine" ] && grep -q usage "$room/errors"
}
try "no argument" complains
try "two arguments" complains samples/gray.cot samples/gray.cot
try "a missing file" complains "$room/missing.rle"
try "a directory" complains samples
# Headers that promise more pixels than the example has room for: 65,535 x 1,000,000, and as many and a line, which are rejected.
huge() { head -c 1024 "$1" >"$room/huge" && printf "\\377\\377\\0\\0$2\\102\\017\\0" | dd of="$room/huge" bs=1 seek=184 conv=notrunc status=none; }
says() { [ "$("$room/minimal_gcc" "$room/huge"; echo $?)" = "$1"$'\n'2 ]; }
huge samples/gray.cot '\100'
try "65,535 x 1,000,000 pixels in 1,024 bytes" says "no room for 65535 x 1000000 pixels"
huge samples/gray.cot '\101'
try "1,000,001 lines" says "rejected 20"

# The move by its example: samples and the peer's bi-level sheet to the other type and back, and files that are rejected.
for compiler in gcc clang; do
    try "the move, without a warning, $compiler" "$compiler" -std=c99 -O2 "${strict[@]}" -Itarget/c examples/move.c target/c/libingr.a -o "$room/move_$compiler"
done
becomes() { "$room/move_gcc" "$1" "$room/moved" && cmp "$room/moved" "$2"; }
# There and back, with the rows of the listing as they were.
rows() { "$second" fake-listing <"$1" | tail -n +2; }
returns() {
    "$room/move_gcc" "$1" "$room/moved" && "$room/move_clang" "$room/moved" "$room/back" && cmp "$1" "$room/back" && ! cmp -s "$1" "$room/moved" &&
        rows "$1" >"$room/right" && [ -s "$room/right" ] && rows "$room/moved" | cmp "$room/right" -
}
try "samples/boundary.rle moves to samples/boundary_packed.dat" becomes samples/boundary.rle samples/boundary_packed.dat
try "samples/boundary_packed.dat moves to samples/boundary.rle" becomes samples/boundary_packed.dat samples/boundary.rle
for file in samples/boundary.rle samples/boundary_open.rle samples/boundary_packed.dat samples/sideways.rle tests/peer/bilevel.rle; do
    try "$file moves there and back" returns "$file"
done
# Prints a rejection, ends with status 1 and writes nothing.
rejected() { rm -f "$room/moved" && [ "$("$room/move_gcc" "$2" "$room/moved"; echo $?)" = "rejected $1"$'\n'1 ] && [ ! -e "$room/moved" ]; }
try "a file of type 2 is not moved" rejected 30 samples/gray.cot
try "a file of type 10 with a lost line is not moved" rejected 30 samples/cut.crl
try "a damaged file is not moved" rejected 41 samples/boundary_damaged.rle
try "a file with a spare bit is not moved" rejected 41 samples/packed_damaged.dat
try "a file with offsets is not moved" rejected 42 samples/margin.rle
: >"$room/empty"
try "an empty file is not moved" rejected 11 "$room/empty"
huge samples/boundary.rle '\100'
try "a file without its 1,000,000 lines is not moved" rejected 41 "$room/huge"
huge samples/boundary.rle '\101'
try "1,000,001 lines are not moved" rejected 20 "$room/huge"

# Files that are cut off, under valgrind.
cut_sample=samples/boundary_damaged.rle
full=$(stat -c %s "$cut_sample")
memcheck=(valgrind -q --error-exitcode=99 --leak-check=full --track-fds=no)
quiet=1
before=$passed
for length in 0 1 511 512 1023 $(seq 1024 1 1034) $(seq 1040 7 "$full") $((full - 1)) "$full"; do
    head -c "$length" "$cut_sample" >"$room/cut.rle"
    try "$cut_sample, $length bytes, under valgrind" shows "$room/cut.rle" "${memcheck[@]}" "$room/minimal_gcc"
done
quiet=''
echo "c: $((passed - before)) lengths of $cut_sample under valgrind"

# Buffers that end where memory ends, at every length; and threads with as much stack as the header says.
for name in c_guard c_stack; do
    for compiler in gcc clang; do
        try "$name, $compiler" "$compiler" -std=c99 -O2 -pthread "${strict[@]}" -Itarget/c "tests/$name.c" target/c/libingr.a -o "$room/$name"
        if [ $name = c_guard ]; then words=(samples/* tests/peer/*.{cot,rle,ingr}); else words=(); fi
        try "$name runs, $compiler" "$room/$name" "${words[@]}"
        tail -n 1 "$room/said"
    done
done

# `./lib`, on a copy, with a stand-in for rt: its archive is the source. A source that says 'wrong' is not proved, and one that says 'late' is proved and not built.
copy=$room/copy
mkdir -p "$copy"/crates/{capi_c,low,above}/src "$copy/include" "$room/stand-in"
cp lib "$copy" && cp include/ingr.h "$copy/include"
printf '# crates\nabove: low\ncapi_c staticlib: low std\nlow:\n' >"$copy/crates.txt"
echo low >"$copy/crates/low/src/source"
cat >"$room/stand-in/rt" <<'END'
#!/bin/sh
echo "$*" >>"$CALLS"
case $1 in
version) echo a kit ;;
lib)
    grep -q wrong src/source && echo "logic=not-proved" && exit 1
    echo "crate capi_c: modules loaded=0 checked=1" && echo "logic=proved functions=1"
    grep -q late src/source && exit 1
    mkdir -p out && cp src/source out/libcapi_c.a ;;
esac
END
chmod +x "$room/stand-in/rt"
# Runs `./lib` after its source became the words given.
lib() {
    echo "$1" >"$copy/crates/capi_c/src/source"
    rm -f "$room/calls"
    (cd / && CALLS=$room/calls PATH=$room/stand-in:$PATH "$copy/lib") >"$room/out" 2>"$room/err" </dev/null
    status=$?
}
made() { [ "$status" = 0 ] && [ "$(cat "$room/out")" = target/c/libingr.a$'\n'target/c/ingr.h ] && cmp "$copy/crates/capi_c/src/source" "$copy/target/c/libingr.a" && cmp "$copy/include/ingr.h" "$copy/target/c/ingr.h"; }
built() { made && grep -qx lib "$room/calls"; }
not_built() { made && ! grep -qx lib "$room/calls" && [ ! -s "$room/err" ]; }
gone() { [ "$status" = 1 ] && [ ! -s "$room/out" ] && grep -qF -- "$1" "$room/err" && [ ! -e "$copy/target/c/libingr.a" ] && [ ! -e "$copy/target/c/ingr.h" ]; }
lib one
try "./lib makes archive and header" built
try "./lib says what was proved" grep -q '^lib: capi_c proved' "$room/err"
lib one
try "./lib builds nothing where nothing changed" not_built
lib two
try "./lib, a changed source" built
touch "$copy/crates/above/src/source"
lib two
try "./lib, a changed source above it" not_built
mkdir "$copy/crates/low/specs" && touch "$copy/crates/low/specs/More.antt"
lib two
try "./lib, a changed source below it" built
echo "/* more */" >>"$copy/include/ingr.h"
lib two
try "./lib, a changed header" not_built
lib wrong
try "./lib leaves no archive of before where a proof fails" gone "not proved"
lib late
try "./lib leaves none where the archive cannot be built" gone "could not be built"
lib three
try "./lib, a source that was put right" built
rm "$copy/target/c/libingr.a"
lib three
try "./lib, an archive that was removed" built
only_named() { [ "$(ls -A "$copy/target/c")" = "ingr.h"$'\n'"libingr.a"$'\n'"source" ] && [ -z "$(find "$copy/target" -maxdepth 1 -name 'c.*')" ]; }
try "./lib leaves nothing else behind" only_named

echo "c: $passed passed, $failed failed"
[ "$failed" -eq 0 ] && [ "$passed" -gt 0 ]
