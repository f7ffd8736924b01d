#!/usr/bin/env bash
# Tries the command `ingr` as curators use it: what it says of sheets that are good, damaged, foreign and hostile, what it makes
# and never breaks, and what it does where a disk is full, a signal comes or a file shrinks. What must be printed comes from the
# manual page and from the second program (tests/ingr_expected.py), not from the command. Run it after `./lib` and after the
# second program is built. Its last line is 'ingr: N passed, M failed'.
set -uo pipefail
cd "$(dirname "$0")/.." || exit 1
export LC_ALL=C.UTF-8
room=$(mktemp -d)
trap 'rm -rf "$room"' EXIT
chmod 755 "$room"
passed=0 failed=0
second=tests/second/target/release/second
strict=(-std=c11 -O2 -Wall -Wextra -Wpedantic -Wconversion -Werror)

# Counts one trial: its name, then a test. What the test says is shown where it fails, with what the command left.
try() {
    local name=$1
    shift
    if "$@" >"$room/said" 2>&1; then
        passed=$((passed + 1))
        [ -n "${quiet:-}" ] || echo "ingr: $name"
    else
        failed=$((failed + 1))
        echo "FAILED: $name${status:+ (status $status)}"
        { tail -n 20 "$room/said"; head -n 8 "$room/out" "$room/err" 2>/dev/null; } | cut -c 1-600 | sed 's/^/  /'
    fi
}

for tool in gcc clang valgrind mandoc python3 setpriv; do
    command -v "$tool" >/dev/null || { apt-get update -qq && apt-get install -y -qq "${tool/setpriv/util-linux}"; }
done
python=$(python3 -c 'import sys; print(sys.executable)')
expected() { "$python" tests/ingr_expected.py "$@"; }

# Forgets what the command left, before trials that run it in another way.
forget() { status='' && rm -f "$room/out" "$room/err"; }

# The command, at the top of the repository: it builds what is missing, and says so.
status=''
built() { grep -qi build "$room/err"; }
rm -f target/c/ingr
./ingr --help >"$room/out" 2>"$room/err" </dev/null
status=$?
is_built() { [ "$status" = 0 ] && built && [ -x target/c/ingr ] && [ -s "$room/out" ] && ! grep -qi build "$room/out"; }
try "./ingr builds the command where it is missing, and says so" is_built
./ingr --help >"$room/out" 2>"$room/err" </dev/null
status=$?
is_silent() { [ "$status" = 0 ] && [ ! -s "$room/err" ] && [ -s "$room/out" ]; }
try "./ingr says nothing where all is there" is_silent
if [ ! -x target/c/ingr ]; then
    echo "ingr: $passed passed, $((failed + 1)) failed"
    exit 1
fi
# Of that program, in a place that anybody may enter, so that nobody can run it too.
cp target/c/ingr "$room/ingr" && chmod 755 "$room/ingr"
program=$room/ingr
from=$PWD
(cd samples && ../ingr check boundary.rle ./gray.cot) >"$room/out" 2>"$room/err" </dev/null
status=$?
is_relative() { [ "$status" = 0 ] && [ ! -s "$room/err" ] && [ "$(cat "$room/out")" = "boundary.rle: good, 6 lines"$'\n'"./gray.cot: good, 3 lines" ]; }
try "./ingr from another directory, with names of that directory" is_relative
ln -s "$PWD/ingr" "$room/link"
(cd "$room" && ./link check "$from/samples/cut.crl") >"$room/out" 2>"$room/err" </dev/null
status=$?
passes_through() { [ "$status" = "$1" ] && [ -s "$room/out" ]; }
try "./ingr by a link, with the status of the command" passes_through 1
./ingr nothing >"$room/out" 2>"$room/err" </dev/null
status=$?
is_two() { [ "$status" = 2 ] && [ ! -s "$room/out" ] && [ -s "$room/err" ]; }
try "./ingr with the status 2" is_two

# The sources, with both compilers.
for source in tools/ingr/*.c; do
    for compiler in gcc clang; do
        quiet=1 try "$source without a warning, $compiler" "$compiler" "${strict[@]}" -Itarget/c -c -o "$room/alone.o" "$source"
    done
done
sources=(tools/ingr/*.c)
echo "ingr: ${#sources[@]} sources, with two compilers"

# Runs the command by the words given; its output, messages and status are kept. Standard input is from $input.
input=/dev/null
ingr() {
    "$program" "$@" >"$room/out" 2>"$room/err" <"$input"
    status=$?
}

# The manual page: no error, and the numbers that the header has.
lint() { [ -s tools/ingr/ingr.1 ] && [ -z "$(mandoc -Tlint -W warning tools/ingr/ingr.1)" ]; }
try "the manual page has no error" lint
numbers() { sed -nE "s/^#define INGR_$1[A-Z_]+ ([0-9]+)$/\1/p" | sort -n; }
same() { [ -s "$1" ] && diff "$1" "$2"; }
expected sentences MARKS >"$room/marks"
numbers MARK_ <include/ingr.h | grep -vx 0 >"$room/right"
cut -d ' ' -f 1 "$room/marks" >"$room/mine"
try "the page has every mark" same "$room/right" "$room/mine"
expected sentences REFUSALS >"$room/refusals"
# A short buffer is the program's own fault, and 25 is a pixel without a color: nobody is told these numbers.
sed -n '/^\/\* Rejections/,/^ \* Marks of/p' include/ingr.h | numbers '' | grep -vxE '23|24|25|28|29|31' >"$room/right"
cut -d ' ' -f 1 "$room/refusals" | sort -n >"$room/mine"
try "the page has every refusal" same "$room/right" "$room/mine"
sentence() { sed -n "s/^$1  //p" "$room/$2"; }

# Help: the options of the page, and no other.
expected commands >"$room/commands"
helps() {
    [ "$status" = 0 ] && [ -s "$room/out" ] && [ ! -s "$room/err" ]
}
has_options() {
    helps && expected options "$1" | sed '/^$/d' >"$room/right" && diff "$room/right" <(grep -oE -- '--[a-z][a-z-]*' "$room/out" | sort -u | sed '/^--help$/d')
}
for command in $(cat "$room/commands"); do
    ingr "$command" --help
    try "the help of $command has the options of the page" has_options "$command"
done
has_commands() {
    local command
    helps && [ "$(wc -l <"$room/commands")" = 6 ] || return 1
    for command in $(cat "$room/commands"); do grep -qw "$command" "$room/out" || return 1; done
    # And no option that the page has not.
    ! grep -oE -- '--[a-z][a-z-]*' "$room/out" | sort -u | grep -vxF -f <(sed 's/\\-/-/g' tools/ingr/ingr.1 | grep -oE -- '--[a-z][a-z-]*' | sort -u)
}
ingr --help
try "the help has every command" has_commands

# Files for what follows.
mkdir "$room/crafted" "$room/made"
expected craft "$room/crafted" || echo "FAILED: nothing was crafted"
c=$room/crafted
m=$room/made

# Wrong usage: status 2, a message that begins with the command's name and says how to go on, no output, and no file.
wrong() {
    local command=$1
    [ "$status" = 2 ] && [ ! -s "$room/out" ] && grep -q '^ingr' <(head -n 1 "$room/err") && [ -z "$(ls -A "$m")" ] &&
        grep -qxF "Try 'ingr${command:+ $command} --help'." "$room/err"
}
s=samples/boundary.rle
usage() {
    ingr "$@"
    case ${1:-} in info | check | view | make | compare | move) ;; *) set -- '' ;; esac
    try "wrong usage: $title" wrong "$1"
}
title="no word at all"
usage
title="an unknown command"
usage nothing
usage Info "$s"
usage --nothing
for command in info check view make compare move; do
    title="$command, an unknown option"
    usage "$command" --nothing "$s" "$m/out"
    title="$command, no operand"
    usage "$command"
done
title="view with one operand"
usage view "$s"
title="view with three operands"
usage view "$s" "$m/out" "$m/more"
title="move with one operand"
usage move "$s"
title="move with three operands"
usage move "$s" "$m/out" "$m/more"
title="compare with one operand"
usage compare "$s"
title="compare with three operands"
usage compare "$s" "$s" "$s"
title="make with one operand"
usage make --type 9 "$c/cross.pbm"
title="make with three operands"
usage make --type 9 "$c/cross.pbm" "$m/out" "$m/more"
title="make without a type"
usage make "$c/cross.pbm" "$m/out"
for words in "--shrink 0" "--shrink x" "--shrink 65536" "--shrink -1" "--shrink=" "--shrink 1x" "--shrink 18446744073709551617" "--lines 5-2" \
    "--lines 0-1" "--lines 0" "--lines x" "--lines 1-" "--lines -2" "--lines 1-2-3" "--lines=" "--as-scanned=1"; do
    title="view $words"
    # shellcheck disable=SC2086 # two words
    usage view $words "$s" "$m/out"
done
title="view, an option without its value"
usage view "$s" "$m/out" --shrink
for words in "--type x" "--type=" "--type 9 --dpi 0" "--type 9 --dpi 32769" "--type 9 --microns 0" "--type 9 --microns 32768" "--type 9 --dpi 100 --microns 50" \
    "--type 9 --slo x" "--type 9 --dpi 1.5" "--type 9 --headers=1"; do
    title="make $words"
    # shellcheck disable=SC2086
    usage make $words "$c/cross.pbm" "$m/out"
done
title="make, an option without its value"
usage make "$c/cross.pbm" "$m/out" --type
title="compare, an option without its value"
usage compare "$s" "$s" --picture
title="compare, a picture on standard output, which has the report"
usage compare --picture - "$s" "$s"
title="standard input twice"
usage compare - -
title="standard input twice, for a table too"
usage make --type 2 --table - - "$m/out"
title="standard input three times"
usage check - "$s" - -

# What is refused by the library is status 1, and no file.
refused() { [ "$status" = 1 ] && [ ! -s "$room/out" ] && [ "$(cat "$room/err")" = "ingr $1: $3: refused: $(sentence "$2" refusals) ($2)" ] && [ -z "$(ls -A "$m")" ]; }
ingr make --type 9 --slo 8 "$c/cross.pbm" "$m/out"
try "make --slo 8" refused make 17 "$m/out"
ingr make --type 7 "$c/cross.pbm" "$m/out"
try "make --type 7" refused make 16 "$m/out"
ingr make --type 1 "$c/wide.pbm" "$m/out"
try "make, a picture that is too wide" refused make 19 "$m/out"
ingr make --type 1 "$c/tall.pbm" "$m/out"
try "make, a picture that is too tall" refused make 20 "$m/out"
ingr make --type 9 --table "$c/table" "$c/entries.ppm" "$m/out"
try "make, an entry that is too high for type 9" refused make 26 "$m/out"
ingr make --type 10 --headers "$c/alternating.pgm" "$m/out"
try "make, a line that its header cannot say" refused make 27 "$m/out"
ingr move samples/gray.cot "$m/out"
try "move, neither of type 1 nor of type 9" refused move 30 samples/gray.cot
ingr move samples/boundary_damaged.rle "$m/out"
try "move, a refused line" refused move 41 samples/boundary_damaged.rle
ingr move samples/margin.rle "$m/out"
try "move, a line that starts partway" refused move 42 samples/margin.rle
ingr move "$c/alternating" "$m/out"
try "move, a line that its header cannot say" refused move 27 "$c/alternating"
ingr move "$c/refusal_12" "$m/out"
try "move, a foreign file" refused move 12 "$c/refusal_12"
ingr view "$c/refusal_15" "$m/out"
try "view, a file that is refused" refused view 15 "$c/refusal_15"
ingr compare --picture "$m/out" "$c/refusal_13" "$s"
try "compare, a file that is refused" refused compare 13 "$c/refusal_13"

# Every mark and every refusal that a file can have, by the sentence of the page.
has_mark() { expected has_mark "$1" "$2" && [ "$status" = 1 ] && expected report "$room/out" "$2" && [ ! -s "$room/err" ]; }
for mark in 1 2 3 4 5 6 7 8 9 10; do
    ingr check "$c/mark_$mark"
    try "mark $mark" has_mark $mark "$c/mark_$mark"
done
is_refused() { [ "$status" = 1 ] && [ "$(cat "$room/out")" = "$2: refused: $(sentence "$1" refusals) ($1)" ] && [ ! -s "$room/err" ]; }
for file in "$c"/refusal_*; do
    ingr check "$file"
    number=${file##*refusal_}
    try "refusal ${number//_/, }" is_refused "${number%%_*}" "$file"
done

# The whole report of what is there already, by text, by JSON and in words.
known=(samples/* tests/peer/*.{cot,rle,ingr})
sheets=("${known[@]}" "$c"/{longer,byte_longer,environ,shifted,mark_9,refusal_22})
ingr check "${sheets[@]}"
has_report() { [ "$status" = "$1" ] && [ ! -s "$room/err" ] && expected report "$room/out" "${@:2}"; }
try "the report of ${#sheets[@]} sheets" has_report 1 "${sheets[@]}"
ingr check --json "${sheets[@]}"
has_json() { [ "$status" = "$1" ] && [ ! -s "$room/err" ] && expected report_json "$room/out" "${@:2}"; }
try "the same as JSON" has_json 1 "${sheets[@]}"
exactly() { [ "$(cat "$room/out")" = "$1" ]; }
ingr check --json samples/boundary_damaged.rle
try "JSON, byte for byte" exactly "$(printf %s '{"file":"samples/boundary_damaged.rle","bytes":1112,"status":"damaged","type":9,"pixels":16,"lines":6,' \
    '"good":5,"end":1112,"refused":[{"first":4,"last":4,"mark":8,"reason":"the runs total too little"}]}')"
ingr info "${sheets[@]}"
describes() { [ "$status" = "$1" ] && [ ! -s "$room/err" ] && expected info "${@:2}" >"$room/right" && same "$room/right" "$room/out"; }
try "the same in words" describes 1 "${sheets[@]}"
ingr info samples/gray.cot samples/sideways.rle
try "info of what is good" describes 0 samples/gray.cot samples/sideways.rle

# The exit status of each command: 0, and where a file is missing 2. (1 is above and below.)
complains() { [ "$status" = 2 ] && [ ! -s "$room/out" ] && grep -q "^ingr $1: $2: ." "$room/err" && [ -z "$(ls -A "$m")" ]; }
for words in "info MISSING" "view MISSING $m/out" "move MISSING $m/out" "make --type 9 MISSING $m/out" "make --type 9 --table MISSING $c/cross.pbm $m/out" \
    "compare MISSING $s" "compare --picture $m/out $s MISSING"; do
    # shellcheck disable=SC2086 # words of it
    ingr ${words/MISSING/$c/missing}
    try "a missing file: ${words//$room?/}" complains "${words%% *}" "$c/missing"
done
ingr check "$c/missing" samples/gray.cot
try "check, a missing file and one that is good" has_report 2 "$c/missing=cannot be opened: No such file or directory" samples/gray.cot
ingr check --json "$c/missing"
try "check --json, a missing file" has_json 2 "$c/missing=cannot be opened: No such file or directory"
ingr check samples/gray.cot samples/height.dat
try "check of what is good" has_report 0 samples/gray.cot samples/height.dat
ingr info "$c/missing" samples/gray.cot samples/cut.crl
goes_on() { [ "$status" = 2 ] && grep -q "^ingr info: $c/missing: " "$room/err" && expected info samples/gray.cot samples/cut.crl | cmp - "$room/out"; }
try "info goes on after a missing file" goes_on

# Pictures: each sheet upright and as it was scanned, smaller, and some of its lines.
shows() {
    local right=$1 file=$2
    shift 2
    "$program" view "$@" "$file" "$m/out.png" >"$room/out" 2>"$room/err"
    status=$?
    [ "$status" = "$right" ] && [ ! -s "$room/out" ] && expected view "$file" "$m/out.png" "$@"
}
for file in "${known[@]}" "$c/environ"; do
    case $file in *damaged* | *cut*) right=1 ;; *) right=0 ;; esac
    quiet=1 try "the view of $file" shows $right "$file"
    quiet=1 try "the view of $file as it was scanned" shows $right "$file" --as-scanned
    quiet=1 try "the view of $file, smaller" shows $right "$file" --shrink=2
done
echo "ingr: views of $((${#known[@]} + 1)) sheets, three of each"
try "a view of some lines" shows 1 samples/boundary_damaged.rle --lines=3-5
try "a view of the good ones" shows 0 samples/boundary_damaged.rle --lines=5-6
try "a view of one line" shows 0 samples/sideways.rle --lines=8
try "a view that is one pixel" shows 0 samples/sideways.rle --shrink=65535
# Where a mean is one of the listed colors, it is not the hatch's.
ingr view --shrink 2 "$c/means" "$m/out.png"
try "the hatch looks like no mean" expected apart "$m/out.png"
rm -f "$m"/*
# What it says: the refused lines, and how many pixels have no color.
ingr view samples/boundary_damaged.rle "$m/out.png"
says() { [ "$status" = "$1" ] && [ "$(cat "$room/err")" = "$2" ]; }
try "a view says which lines are refused" says 1 "ingr view: samples/boundary_damaged.rle: 1 of 6 lines refused
  line 4: the runs total too little (mark 8)"
ingr view --lines 4-6 samples/boundary_damaged.rle "$m/out.png"
try "of some lines it counts these" says 1 "ingr view: samples/boundary_damaged.rle: 1 of 3 lines refused
  line 4: the runs total too little (mark 8)"
ingr view samples/height.dat "$m/out.png"
try "a view says how many pixels have no color" says 0 "ingr view: samples/height.dat: $("$second" fake-listing <samples/height.dat |
    tail -n +2 | cut -d : -f 2 | tr ' ' '\n' | awk '$1 > 255 { n++ } END { print n }') pixels have no color"
ingr view samples/gray.cot "$m/out.png"
try "a view of a good sheet says nothing" says 0 ''
rm -f "$m"/*
ingr view --lines 6-7 "$s" "$m/out.png"
past() { [ "$status" = 2 ] && [ -s "$room/err" ] && [ -z "$(ls -A "$m")" ]; }
try "lines past the last" past

# Sheets that are made: what a view shows, made again, is the same sheet.
comes_back() {
    local type=$1 slo=$2
    shift 2
    "$program" make --type "$type" --slo "$slo" "$@" "$m/view.png" "$m/sheet" && "$program" view "$m/sheet" "$m/again.png" && expected view "$m/sheet" "$m/again.png" &&
        cmp "$m/view.png" "$m/again.png"
}
"$program" view samples/sideways.rle "$m/view.png"
for type in 1 9; do for slo in 0 1 2 3 4 5 6 7; do quiet=1 try "made of a view, type $type, orientation $slo" comes_back $type $slo --dpi 200; done; done
"$program" view samples/gray.cot "$m/view.png"
for type in 2 3 10; do for slo in 1 6; do quiet=1 try "made of a view, type $type, orientation $slo" comes_back $type $slo --headers; done; done
echo "ingr: 22 sheets made of views"
rm -f "$m"/*
# The scanner's own headers have fields that are not read: all else is what it was, and the lines are so byte for byte.
is_sample() { [ -s "$2" ] && cmp <(tail -c +1025 "$1") <(tail -c +1025 "$2") && cmp <("$second" fake-header <"$1") <("$second" fake-header <"$2"); }
makes_sample() { "$program" make "${@:2}" "$m/view.png" "$m/sheet" && is_sample "$1" "$m/sheet"; }
"$program" view samples/boundary.rle "$m/view.png"
try "samples/boundary.rle is made of its view, by its lines and fields" makes_sample samples/boundary.rle --type 9 --headers --dpi 200
try "samples/boundary_open.rle too" makes_sample samples/boundary_open.rle --type 9
try "samples/boundary_packed.dat too" makes_sample samples/boundary_packed.dat --type 1 --headers --dpi 200
has_rows() { "$program" make "${@:3}" "$2" "$m/sheet" && [ "$("$second" fake-listing <"$m/sheet" | tail -n +2 | cut -d : -f 2)" = "$1" ]; }
try "a plain PBM" has_rows " 1 0 1"$'\n'" 0 1 0" "$c/cross.pbm" --type 9
printf 'P2 2 1 3 0 3' >"$c/shades.pgm"
try "a plain PGM that ends at 3" has_rows " 0 255" "$c/shades.pgm" --type 2
printf 'P2 3 1 65535 0 300 65535' >"$c/high.pgm"
try "a plain PGM that goes higher than 255" has_rows " 0 300 65535" "$c/high.pgm" --type 10
try "colors of a table" has_rows " 0 5 255" "$c/entries.ppm" --type 2 --table "$c/table"
"$program" make --type 2 --table "$c/table" "$c/entries.ppm" "$c/tabled" 2>/dev/null
try "colors of another sheet's table" has_rows " 0 5 255" "$c/entries.ppm" --type 10 --table "$c/tabled"
from_input() { "$program" make --type 2 --table - "$c/entries.ppm" "$m/sheet" <"$c/table" && cmp "$m/sheet" "$c/tabled"; }
try "a table from standard input" from_input
has_resolution() { "$program" make --type 9 "${@:2}" "$c/cross.pbm" "$m/sheet" && "$second" fake-header <"$m/sheet" | grep -q " resolution $1 slo "; }
try "the most dots per inch" has_resolution "2 32768" --dpi 32768
try "the fewest dots per inch" has_resolution "2 1" --dpi=1
try "the most microns" has_resolution "1 32767" --microns 32767
try "no resolution" has_resolution "0 0"
rm -f "$m"/*
printf 'P2 3 2 255 0 255 255 0 7 255' >"$c/gray.pgm"
ingr make --type 9 "$c/gray.pgm" "$m/out"
gray() { complains make "$c/gray.pgm" && grep -qF "the pixel at column 2, row 2 is neither black nor white" "$room/err"; }
try "a pixel that is neither black nor white" gray
for picture in high.pgm entries.ppm table refusal_11; do
    ingr make --type 2 "$c/$picture" "$m/out"
    try "make --type 2 of $picture" complains make "$c/$picture"
done
printf 'P2 2 2 255 0 255 255' >"$c/short.pgm"
ingr make --type 2 "$c/short.pgm" "$m/out"
try "a picture that is cut off" complains make "$c/short.pgm"
printf 'P6 1 1 255 \1\2\3' >"$c/lacking.ppm"
ingr make --type 2 --table "$c/table" "$c/lacking.ppm" "$m/out"
try "a color that the table lacks" complains make "$c/lacking.ppm"
ingr make --type 2 --table samples/gray.cot "$c/entries.ppm" "$m/out"
has_no_table() { [ "$status" = 2 ] && [ -z "$(ls -A "$m")" ] && grep -q '^ingr make: samples/gray.cot: ' "$room/err"; }
try "a sheet without a table" has_no_table

# Comparisons, each report whole.
compares() { [ "$status" = "$1" ] && [ ! -s "$room/err" ] && diff - "$room/out"; }
ingr compare "$s" samples/boundary_damaged.rle
try "a comparison with a damaged sheet" compares 1 <<'END'
headers: alike
colors: alike
lines: 1 of 6 differ
  line 4
refused in old: none
refused in new: 1 of 6 lines
  line 4: the runs total too little (mark 8)
end of old: byte 1112 of 1112
end of new: byte 1112 of 1112
END
ingr compare "$s" samples/margin.rle
try "a comparison of sheets that are alike" compares 0 <<'END'
headers: alike
colors: alike
lines: all 6 alike
refused in old: none
refused in new: none
end of old: byte 1112 of 1112
end of new: byte 1112 of 1112
END
ingr compare samples/boundary_packed.dat samples/boundary_open.rle
try "a comparison of other headers" compares 1 <<'END'
headers: differ
  type: 1 in old, 9 in new
  resolution: 200 dots per inch in old, none in new
  line headers: yes in old, no in new
colors: alike
lines: all 6 alike
refused in old: none
refused in new: none
end of old: byte 1084 of 1084
end of new: byte 1064 of 1064
END
ingr compare samples/gray.cot samples/sideways.rle
try "a comparison of other sizes" compares 1 <<'END'
headers: differ
  type: 2 in old, 9 in new
  pixels per line: 5 in old, 6 in new
  lines: 3 in old, 9 in new
  resolution: none in old, 200 dots per inch in new
  orientation: 4 in old, 1 in new
colors: 10 values differ
  value 0: 0 0 0 in old, 65535 65535 65535 in new
  value 1: 256 256 256 in old, 0 0 0 in new
  value 2: 512 512 512 in old, none in new
  value 3: 768 768 768 in old, none in new
  value 4: 1024 1024 1024 in old, none in new
  value 5: 1280 1280 1280 in old, none in new
  value 64: 16384 16384 16384 in old, none in new
  value 128: 32768 32768 32768 in old, none in new
  value 192: 49152 49152 49152 in old, none in new
  value 255: 65280 65280 65280 in old, none in new
lines: not compared
refused in old: none
refused in new: none
end of old: byte 1066 of 1066
end of new: byte 1154 of 1154
END
# A sheet with the first four lines of another.
"$program" view --lines 1-4 "$s" "$m/four.png" && "$program" make --type 9 --headers --dpi 200 "$m/four.png" "$m/four"
ingr compare "$c/longer" "$m/four"
try "a comparison with fewer lines" compares 1 <<END
headers: differ
  lines: 6 in old, 4 in new
colors: alike
lines: all 4 alike
only in old: lines 5-6
refused in old: none
refused in new: none
end of old: byte 1112 of 1152
end of new: byte $(stat -c %s "$m/four") of $(stat -c %s "$m/four")
END
rm -f "$m"/*
# The picture: pale paper 255 and ink 192, the old end of a run lighter (red), its new one darker (blue), and a hatch.
ingr compare --picture "$m/out.png" "$s" "$c/shifted"
pale() { [ "$status" = 1 ] && expected pixels "$m/out.png" >"$room/mine" && "$python" - "$room/mine" <<'END'
import ast, subprocess, sys
rows = ast.literal_eval(open(sys.argv[1]).read())
lines = subprocess.run(['tests/second/target/release/second', 'fake-listing'], stdin=open('samples/boundary.rle'), capture_output=True, text=True).stdout.splitlines()[1:]
wanted = [[(192,) * 3 if pixel == '1' else (255,) * 3 for pixel in line.split(': ')[1].split()] for line in lines]
wanted[2][2], wanted[2][3] = (255, 0, 0), (0, 0, 255)
sys.exit(rows != wanted or len(rows) != 6)
END
}
try "the picture of a comparison" pale
ingr compare --picture "$m/out.png" "$s" samples/boundary_damaged.rle
hatched() { [ "$status" = 1 ] && expected pixels "$m/out.png" >"$room/mine" && "$python" - "$room/mine" <<'END'
import ast, sys
row = ast.literal_eval(open(sys.argv[1]).read())[3]
sys.exit(row != [((255, 0, 255), (255, 255, 0))[(x + 3) // 4 % 2] for x in range(16)])
END
}
try "a refused line in it" hatched
rm -f "$m"/*
ingr compare --picture "$m/out.png" "$s" samples/sideways.rle
no_picture() {
    [ "$status" = 2 ] && [ -s "$room/out" ] && [ -z "$(ls -A "$m")" ] && grep -qF "no picture: the sheets have not the same size and orientation" "$room/err"
}
try "no picture of sheets of other sizes" no_picture

# A directory of everything, and below it more. Links to directories are not followed, and a pipe is not waited for.
plans=$room/plans
mkdir -p "$plans/deep/deeper" "$plans/nothing"
cp samples/boundary.rle "$plans/B.rle"
cp samples/boundary_damaged.rle "$plans/a.rle"
cp samples/gray.cot "$plans/deep/deeper/gray.cot"
cp samples/cut.crl "$plans/deep/z.crl"
cp README.md "$plans/readme"
: >"$plans/empty"
cp samples/color.crl "$plans/é.crl"
cp samples/height.dat "$plans/.hidden"
ln -s nowhere "$plans/dangling"
ln -s .. "$plans/deep/loop"
ln -s "$plans/deep" "$plans/round"
ln -s B.rle "$plans/same.rle"
mkfifo "$plans/pipe"
cp samples/boundary.rle "$plans/secret"
chmod 000 "$plans/secret"
mkdir "$plans/locked" && chmod 700 "$plans/locked"
chmod 755 "$plans" "$plans/deep" "$plans/deep/deeper"
chmod a+r "$plans"/*.rle
nobody=(setpriv --reuid=65534 --regid=65534 --clear-groups)
[ "$(id -u)" = 0 ] || nobody=()
as_nobody() {
    timeout 20 "${nobody[@]}" "$program" "$@" >"$room/out" 2>"$room/err" </dev/null
    status=$?
}
# As nobody, the expected values are still made by whoever may read all.
listed=(.hidden B.rle a.rle "dangling=cannot be opened: No such file or directory" deep/deeper/gray.cot deep/z.crl empty "locked=.*Permission denied.*" "pipe=.+" readme
    same.rle "secret=cannot be opened: Permission denied" é.crl)
as_nobody check "$plans"
try "the report of a directory" has_report 2 "${listed[@]/#/$plans/}"
cp "$room/out" "$room/text"
as_nobody check "$plans/"
try "with a slash at its end the same" same "$room/text" "$room/out"
as_nobody check --json "$plans"
try "the same as JSON" has_json 2 "${listed[@]/#/$plans/}"
ingr check "$plans/nothing"
try "a directory without a file" has_report 2 "$plans/nothing=there is no file in it"
rm -f "$plans"/{dangling,pipe,secret,readme,empty,a.rle} "$plans/deep/z.crl" && rmdir "$plans/locked"
ingr check "$plans" samples
right=("$plans"/{.hidden,B.rle,deep/deeper/gray.cot,same.rle,é.crl} samples/*)
try "two directories" has_report 1 "${right[@]}"
ingr check "$plans"
try "a directory of good sheets" has_report 0 "${right[@]:0:5}"
ingr info "$plans"
try "info of a directory" complains info "$plans"
ingr view "$plans" "$m/out"
try "view of a directory" complains view "$plans"

# Names: blanks, line feeds, dashes, bytes that are no text, backslashes and escapes.
names=("two words" $'two\nlines' -dash --json $'not\xff\xfetext' 'back\slash' $'\e[31mred' 'quo"te' $'c1\xc2\x9bcode' 'né')
mkdir "$room/names"
for name in "${names[@]}"; do cp samples/boundary.rle "$room/names/$name"; done
program=../ingr
named() {
    (cd "$room/names" && ingr "$@" && exit "$status")
    status=$?
}
in_names() { local status_wanted=$1; shift; [ "$status" = "$status_wanted" ] && (cd "$room/names" && "$python" "$from/tests/ingr_expected.py" "$@"); }
mkdir "$room/named"
for each in "${names[@]}"; do
    printable=$(expected escaped "$each")
    named check -- "$each"
    quiet=1 try "check $printable" in_names 0 report "$room/out" "$each"
    named check --json -- "$each"
    quiet=1 try "check --json $printable" in_names 0 report_json "$room/out" "$each"
    named info -- "$each"
    names_it() { [ "$status" = 0 ] && [ "$(head -n 1 "$room/out")" = "$printable" ]; }
    quiet=1 try "info $printable" names_it
    named view -- "$each" "../named/$each"
    views_it() { [ "$status" = 0 ] && [ "$(ls -A "$room/named" | wc -l)" -ge 1 ] && expected view samples/boundary.rle "$room/named/$each"; }
    quiet=1 try "view $printable" views_it
    rm -f "$room/named/$each"
    named move -- "$each" "../named/$each"
    moves_it() { [ "$status" = 0 ] && cmp samples/boundary_packed.dat "$room/named/$each"; }
    quiet=1 try "move $printable" moves_it
    rm -f "$room/named/$each"
    named move -- "../../missing/$each" "../named/$each"
    blames_it() { [ "$status" = 2 ] && [ "$(wc -l <"$room/err")" = 1 ] && grep -qF "ingr move: ../../missing/$printable: " "$room/err"; }
    quiet=1 try "a complaint of $printable" blames_it
    named view ../ingr "./$each/x"
    blames_out() { [ "$status" != 0 ] && [ "$(wc -l <"$room/err")" = 1 ]; }
    quiet=1 try "another complaint of $printable" blames_out
done
echo "ingr: ${#names[@]} names, seven trials with each"
named check ./-dash
try "a dash after a slash" in_names 0 report "$room/out" ./-dash
named check -dash
dash() { [ "$status" = 2 ] && [ ! -s "$room/out" ]; }
try "a dash in front is an option" dash
named check .
sorted() { [ "$status" = 0 ] && (cd "$room/names" && mapfile -d '' -t all < <(printf './%s\0' "${names[@]}" | LC_ALL=C sort -z) && cd "$from" &&
    for each in "${all[@]}"; do expected escaped "$each" && echo ": good, 6 lines"; done | diff - "$room/out"); }
try "all of them, by their bytes" sorted
program=$room/ingr

# What README shows of the command, and the picture that it shows.
readme() {
    local line words block=0
    while IFS= read -r line; do
        words=${line#    ./ingr }
        awk -v line="$line" '$0 == line { on = 1; getline; next } on && /^    / { print substr($0, 5); next } on { exit }' README.md >"$room/right"
        [ -s "$room/right" ] || continue
        # shellcheck disable=SC2086 # its words
        "$program" $words >"$room/mine" 2>&1
        diff "$room/right" "$room/mine" || return 1
        block=$((block + 1))
    done < <(grep -E '^    \./ingr (check|info|compare) ' README.md)
    [ "$block" -ge 2 ]
}
try "README shows what is printed" readme
for picture in $(grep -oE '<img src="docs/[a-z_]+\.png"' README.md | cut -d '"' -f 2); do
    try "README's $picture is the view" expected view "samples/$(basename "$picture" .png).rle" "$picture"
done

# Standard input and output, and pipes.
input=$s
ingr check -
is_line() { [ "$status" = 0 ] && [ "$(cat "$room/out")" = "$1" ]; }
try "check of standard input" is_line "-: good, 6 lines"
ingr info -
first_line() { [ "$status" = 0 ] && [ "$(head -n 1 "$room/out")" = - ] && diff <(expected info "$s" | tail -n +2) <(tail -n +2 "$room/out"); }
try "info of standard input" first_line
ingr view - "$m/out.png"
try "view of standard input" expected view "$s" "$m/out.png"
ingr move - "$m/out"
try "move of standard input" cmp samples/boundary_packed.dat "$m/out"
ingr compare - samples/margin.rle
try "compare of standard input" test "$status" = 0
ingr compare samples/boundary_damaged.rle -
try "compare of standard input, the second" test "$status" = 1
ingr view "$s" -
is_png() { [ "$status" = 0 ] && cp "$room/out" "$m/out.png" && expected view "$s" "$m/out.png"; }
try "view to standard output" is_png
ingr move "$s" -
is_moved() { [ "$status" = 0 ] && cmp samples/boundary_packed.dat "$room/out"; }
try "move to standard output" is_moved
input=$m/out.png
ingr make --type 9 --headers --dpi 200 - "$m/sheet"
try "make of standard input" is_sample "$s" "$m/sheet"
ingr make --type 9 --headers --dpi 200 - -
is_made() { [ "$status" = 0 ] && is_sample "$s" "$room/out"; }
try "make of standard input to standard output" is_made
input=/dev/null
piped() { cat "$s" | "$program" check - | cmp - <(echo "-: good, 6 lines"); }
try "check of a pipe" piped
pipe_to_pipe() { cat "$s" | "$program" move - - | "$program" move - - | cmp - "$s"; }
try "move from pipe to pipe, there and back" pipe_to_pipe
substituted() { [ "$("$program" check <(cat "$s") | sed 's/.*: //')" = "good, 6 lines" ]; }
try "check of a substituted process" substituted
ingr view <(cat "$s") "$m/out.png"
try "view of a substituted process" expected view "$s" "$m/out.png"
ingr make --type 9 --headers --dpi 200 <(cat "$m/out.png") "$m/sheet"
try "make of a substituted process" is_sample "$s" "$m/sheet"
ingr move <(cat "$s") >(cat >"$m/copy")
reaches() { [ "$status" = 0 ] && timeout 5 sh -c 'until cmp -s "$0" "$1"; do sleep 0.1; done' samples/boundary_packed.dat "$m/copy"; }
try "move to a substituted process" reaches
closed() { "$program" check "$s" >&-; [ $? = 2 ]; }
try "standard output that is closed" closed
closed_input() { "$program" check - <&- >"$room/out" 2>"$room/err"; [ $? = 2 ]; }
try "standard input that is closed" closed_input
# A file that is opened while there is no standard input must not be taken for it.
closed_compare() { "$program" compare "$s" - <&- >"$room/out" 2>"$room/err"; [ $? = 2 ]; }
try "a comparison with standard input that is closed" closed_compare
closed_all() { "$program" view samples/boundary_damaged.rle "$m/out.png" <&- >&- 2>&-; [ $? = 1 ] && expected view samples/boundary_damaged.rle "$m/out.png"; }
try "a view with all three closed" closed_all
closed_move() { "$program" move "$s" "$m/out" <&- >&- 2>&- && cmp samples/boundary_packed.dat "$m/out"; }
try "a move with all three closed" closed_move
rm -f "$m"/*

# A full disk: a complaint, the old file as it was, and nothing else left.
is_full() { [ "$status" = 2 ] && [ -c /dev/full ] && grep -q "^ingr $1: .*No space left on device" "$room/err" && [ -z "$(find /dev -maxdepth 1 -name '.ingr-*')" ]; }
ingr view "$s" /dev/full
try "view to a full device" is_full view
ingr move "$s" /dev/full
try "move to a full device" is_full move
ingr make --type 2 "$c/noise.pgm" /dev/full
try "make to a full device" is_full make
ingr compare --picture /dev/full "$s" "$s"
try "compare --picture to a full device" is_full compare
# To a device and to a pipe that has a name what is made goes straight.
ingr view "$s" /dev/null
to_device() { [ "$status" = 0 ] && [ -c /dev/null ] && [ ! -s "$room/err" ]; }
try "view to a device" to_device
mkfifo "$m/pipe"
to_pipe() {
    timeout 10 cat "$m/pipe" >"$room/through" &
    "$program" move "$s" "$m/pipe" && wait $! && [ -p "$m/pipe" ] && cmp samples/boundary_packed.dat "$room/through"
}
try "move to a pipe that has a name" to_pipe
rm -f "$m"/*
for words in "check $s" "check --json $s" "info $s" "compare $s $s" "view $s -" "move $s -" "--help" "view --help"; do
    # shellcheck disable=SC2086
    full() { "$program" $words >/dev/full 2>"$room/err" </dev/null; [ $? = 2 ] && grep -q '^ingr' "$room/err"; }
    try "${words//$room?/} with a full standard output" full
done
"$program" make --type 2 "$c/noise.pgm" "$c/noise"
{ printf 'P4 1000 300\n' && tail -c 37500 "$c/noise.pbm"; } >"$c/some.pbm"
"$program" make --type 1 "$c/some.pbm" "$c/packed"
cat >"$room/small.sh" <<'END'
small=$1 program=$2 old=$3
shift 3
mount -t tmpfs -o size=64k,mode=755 none "$small" || exit 77
cp "$old" "$small/out" || exit 77
"$program" "$@" "$small/out" 2>"$small.err"
status=$?
cat "$small.err"
echo "status $status, left: $(ls -A "$small")"
[ "$status" = 2 ] && cmp "$old" "$small/out" && [ "$(ls -A "$small")" = out ] && grep -q 'cannot be written: No space left on device' "$small.err"
END
mkdir "$room/small"
# Root mounts it where nobody else sees it, and others as root of a namespace of their own.
if [ "$(id -u)" = 0 ]; then private=(unshare -m); else private=(unshare -r -m); fi
small() { "${private[@]}" sh "$room/small.sh" "$room/small" "$program" "$s" "$@"; }
try "view to a small disk" small view "$c/noise"
try "make to a small disk" small make --type 2 "$c/noise.pgm"
try "move to a small disk" small move "$c/packed"

# Where OUT leads, and what mode it has.
cp "$s" "$m/itself"
ingr move "$m/itself" "$m/itself"
try "move of a sheet onto itself" cmp samples/boundary_packed.dat "$m/itself"
ln -s itself "$m/way"
ingr move "$m/itself" "$m/way"
led() { [ "$status" = 0 ] && [ -L "$m/way" ] && [ ! -L "$m/itself" ] && cmp "$s" "$m/itself"; }
try "a link stays, and what it leads to is replaced" led
mkdir "$m/apart" && cp "$s" "$m/apart/far" && ln -sf apart/far "$m/way"
ingr view "$s" "$m/way"
led_far() { [ "$status" = 0 ] && [ -L "$m/way" ] && expected view "$s" "$m/apart/far" && [ "$(ls -A "$m/apart")" = far ]; }
try "a link to another directory" led_far
ingr view "$s" "$m/missing/out"
try "OUT in a directory that there is not" grep -q "^ingr view: $m/missing/out: .*No such file" "$room/err"
try "its status" test "$status" = 2
ingr view "$s" "$m/apart"
onto_directory() { [ "$status" = 2 ] && [ -d "$m/apart" ] && [ "$(ls -A "$m/apart")" = far ] && grep -q "^ingr view: $m/apart: " "$room/err"; }
try "OUT that is a directory" onto_directory
ingr view "$s" ''
try "OUT without a name" test "$status" = 2
mkdir "$room/closed" && chmod 755 "$room/closed"
chmod a+r "$c/noise"
chmod 755 "$c"
as_nobody view "$c/noise" "$room/closed/out"
not_allowed() { [ "$status" = 2 ] && [ -z "$(ls -A "$room/closed")" ] && grep -q "^ingr view: .*Permission denied" "$room/err"; }
try "OUT in a directory without permission" not_allowed
rm -rf "${m:?}"/*
has_mode() { [ "$status" = 0 ] && [ "$(stat -c %a "$m/out")" = "$1" ]; }
for words in "view $s" "move $s" "make --type 9 $c/cross.pbm"; do
    rm -f "$m/out"
    # shellcheck disable=SC2086
    (umask 027 && ingr $words "$m/out" && exit "$status")
    status=$?
    try "${words%% *}, a new file's mode" has_mode 640
    chmod 604 "$m/out"
    # shellcheck disable=SC2086
    (umask 077 && ingr $words "$m/out" && exit "$status")
    status=$?
    try "${words%% *}, a replaced file's mode" has_mode 604
done
rm -f "$m"/*

# More pixels than memory has, and less memory than there is.
ingr check "$c/huge"
try "check of 65,535 x 1,000,000 pixels" has_report 2 "$c/huge=needs 131,070,000,000 bytes of memory, ([0-9,]+ are available|which cannot be had)"
needs() { complains "$1" "$2" && grep -q "needs [0-9,]* bytes of memory" "$room/err"; }
ingr view "$c/huge" "$m/out"
try "view of it" needs view "$c/huge"
ingr info "$c/huge"
knows_header() { [ "$status" = 2 ] && grep -qx "  lines         1000000 of 65535 pixels" "$room/out" && grep -q "huge: needs 131,070,000,000 bytes of memory" "$room/err"; }
try "info of it, with its header" knows_header
ingr compare "$s" "$c/huge"
try "compare with it" needs compare "$c/huge"
ingr move "$c/huge" "$m/out"
try "move of it" refused move 41 "$c/huge"
(ulimit -v 150000 && ingr check "$c/sparse" samples/gray.cot && exit "$status")
status=$?
try "check with little memory, and it goes on" has_report 2 "$c/sparse=.*memory.*" samples/gray.cot
printf 'P4 60000 900000\n' >"$c/huge.pbm"
ingr make --type 9 "$c/huge.pbm" "$m/out"
try "make of a picture that has far fewer pixels than it says" complains make "$c/huge.pbm"

# Files that change while they are read.
forget
for how in shorter changed; do
    try "a sheet that is $how while check reads it" expected shrinks "$c/sparse" $how "$program" check {}
    try "a sheet that is $how while info reads it" expected shrinks "$c/sparse" $how "$program" info {}
    try "a sheet that is $how while view reads it" expected shrinks "$c/sparse" $how "$program" view {} "$m/out.png"
    try "a sheet that is $how while compare reads it" expected shrinks "$c/sparse" $how "$program" compare --picture "$m/out.png" {} {}
    try "nothing is made of it" test -z "$(ls -A "$m")"
done
try "a sheet that is cut off at any time" expected shaken "$c/sparse" "$program" check

# Progress: on a terminal alone.
mkdir "$room/watched"
cp samples/* "$room/watched" && : >"$room/watched/empty" && ln -s nowhere "$room/watched/dangling" && ln -s "$c/sparse" "$room/watched/large"
count=$(ls -A "$room/watched" | wc -l)
try "progress and sums on a terminal" expected terminal "$count" "$program" check "$room/watched"
ingr check "$room/watched"
no_progress() { [ "$status" = 2 ] && [ ! -s "$room/err" ]; }
try "none in a pipe" no_progress

# Large sheets: 10,000 x 10,000 pixels, 200 MB of them, as they are stored and to be turned.
forget
pixels=200000000 spare=67108864
try "memory of make" expected peak $((pixels + spare)) "$program" make --type 1 "$c/noise.pbm" "$c/large"
try "memory of make, turned" expected peak $((2 * pixels + spare)) "$program" make --type 1 --slo 1 --headers "$c/noise.pbm" "$c/turned"
try "memory of check" expected peak $((pixels + spare)) "$program" check "$c/turned"
try "memory of view, as scanned" expected peak $((pixels + spare)) "$program" view --as-scanned "$c/turned" "$m/out.png"
try "memory of view, turned" expected peak $((2 * pixels + spare)) "$program" view "$c/turned" "$m/out.png"
try "memory of view, upright already" expected peak $((pixels + spare)) "$program" view "$c/large" "$m/out.png"
rm -f "$m"/*

# Signals in the middle of writing: the old file stays, and there is no other.
for signal in INT TERM HUP QUIT USR2 KILL; do
    try "view, ended by $signal" expected interrupt $signal "$m/out.png" "$program" view "$c/large" "$m/out.png"
done
try "view goes on where HUP is ignored" expected ignored "$m/out.png" "$program" view "$c/large" "$m/out.png"
for signal in INT TERM HUP KILL; do
    try "make, ended by $signal" expected interrupt $signal "$m/out" "$program" make --type 1 "$c/noise.pbm" "$m/out"
done
rm -f "$m"/*

# A file that may not grow so far, by the limit of its process.
limited() {
    cp "$s" "$m/out.png"
    (ulimit -f 20 -c 0 && exec "$program" view "$c/noise" "$m/out.png") 2>"$room/err"
    status=$?
    [ "$status" != 0 ] && [ "$(ls -A "$m")" = out.png ] && cmp "$s" "$m/out.png"
}
try "a file that may not grow so far" limited
rm -f "$m"/*

# Under valgrind: no error, and nothing that is lost.
memcheck=(valgrind -q --error-exitcode=9 --leak-check=full "--errors-for-leak-kinds=definite,possible")
clean() {
    local wanted=$1
    shift
    "${memcheck[@]}" "$program" "$@" >"$room/out" 2>"$room/err" </dev/null
    status=$?
    [ "$status" = "$wanted" ] && ! grep -q '^==' "$room/err"
}
try "info under valgrind" clean 1 info samples/boundary.rle samples/cut.crl "$c/refusal_22"
try "check under valgrind" clean 2 check "$room/names" "$c/huge" "$c/mark_6"
try "check --json under valgrind" clean 1 check --json samples
try "view under valgrind" clean 1 view samples/boundary_damaged.rle "$m/out.png"
try "view of a part under valgrind" clean 0 view --shrink 2 --lines 2-8 samples/sideways.rle "$m/view.png"
try "make of a PNG under valgrind" clean 0 make --type 10 --headers --slo 3 "$m/view.png" "$m/out"
try "make by a table under valgrind" clean 0 make --type 10 --slo 6 --table "$c/tabled" "$c/entries.ppm" "$m/out"
try "make of a PBM under valgrind" clean 0 make --type 9 "$c/cross.pbm" "$m/out"
try "make of what is damaged, under valgrind" clean 2 make --type 2 "$c/short.pgm" "$m/out"
try "compare under valgrind" clean 1 compare --picture "$m/out.png" "$s" samples/boundary_damaged.rle
try "move under valgrind" clean 0 move "$s" "$m/out"
try "wrong usage under valgrind" clean 2 view --shrink x

echo "ingr: $passed passed, $failed failed"
[ "$failed" -eq 0 ] && [ "$passed" -gt 0 ]
