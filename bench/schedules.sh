#!/usr/bin/env bash
# Drives drawn schedules of 1 to 16 workers to their end, each beside a collection by one worker, as the test of
# collection_tests does with 2,000 of them. Not part of the tests.
#   schedules.sh [SCHEDULES]   100,000, or so many
set -eu
here=$(cd "$(dirname "$0")" && pwd)
work=$(mktemp -d)
trap 'rm -rf "$work"' EXIT

cp -r "$here/../crates" "$here/../crates.txt" "$here/../HANDLES" "$work/"
mkdir "$work/.git"
sed -i "s/^const SCHEDULES: u64 = .*/const SCHEDULES: u64 = ${1:-100000};/" "$work/crates/collection_tests/src/in_turn/together.rt"
cd "$work/crates/collection_tests"
# It proves and builds the test. Its own limit of time is too short for so many, so that the test is run once more.
rt test || true
time out/collection_tests_tests in_turn::together::drawn_schedules
