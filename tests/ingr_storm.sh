#!/usr/bin/env bash
# Builds the whole command with sanitizers and has it run in one process on thousands of damaged files: `tests/ingr_storm.sh
# [--count N] [--seed S] [--first CASE]`. Run it after `./lib`. With `--count 1` the files of the case are kept, as ingr_storm_case
# where temporary files are. Its last line is 'ingr_storm: N passed, M failed'.
set -uo pipefail
cd "$(dirname "$0")/.." || exit 1
# Files that are written thousands of times are best kept in memory.
room=$(mktemp -d -p "$(if [ -w /dev/shm ]; then echo /dev/shm; else echo /tmp; fi)")
trap 'rm -rf "$room"' EXIT
mkdir "$room/files"

command -v gcc >/dev/null || { apt-get update -qq && apt-get install -y -qq gcc; }
[ -e /usr/include/png.h ] || { apt-get update -qq && apt-get install -y -qq libpng-dev; }

# All of the command but its main.
sources=()
for source in tools/ingr/*.c; do [ "$source" = tools/ingr/main.c ] || sources+=("$source"); done
if ! gcc -std=c11 -g -O1 -fsanitize=address,undefined -fno-sanitize-recover=all -Wall -Wextra -Itarget/c -Itools/ingr tests/ingr_storm.c "${sources[@]}" \
    target/c/libingr.a -lpng -lz -lm -o "$room/ingr_storm"; then
    echo "ingr_storm: 0 passed, 1 failed"
    exit 1
fi
[ $# -gt 0 ] || set -- --count 6000 --seed 1
"$room/ingr_storm" "$@" --room "$room/files" --from samples tests/peer 2>&1 | tee "$room/said"
status=${PIPESTATUS[0]}
if [[ " $* " == *" --count 1 "* ]]; then
    rm -rf "${TMPDIR:-/tmp}/ingr_storm_case" && cp -r "$room/files" "${TMPDIR:-/tmp}/ingr_storm_case"
fi
# A run that a sanitizer ended has no sum.
tail -n 1 "$room/said" | grep -q ' passed, [0-9]* failed$' || echo "ingr_storm: 0 passed, 1 failed"
[ "$status" -eq 0 ]
