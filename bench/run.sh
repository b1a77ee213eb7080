#!/usr/bin/env bash
# Measures gctrace on one processor, beside a plain collector of the same traces (plain.rs, which rustc builds): objects
# copied a second, by traces that are collected again and again, and on a large live tree beside GHC's collector too
# (live_tree.hs, which ghc builds); what a collection costs that finds nothing, and one of ten young objects without and with
# many old ones, what the members of a remembered set cost, and what the write barrier does; one of large objects, which are not
# copied, whatever their size; one as the events of four workers, each the next by itself; a line with many names in use; and
# lines carried out a second, beside what `wc -l` reads of the same file. It builds gctrace first, or takes the program that
# GCTRACE names. Not part of the tests.
#   run.sh                  all of it, which takes some minutes
#   run.sh copies           the traces that are collected again and again alone
#   run.sh live [NODES]     the large live tree alone
#   run.sh young [OBJECTS]  the collections of little alone
#   run.sh large            the collections of large objects alone
#   run.sh events [NODES]   the collections as events of four workers alone
#   run.sh names [NAMES]    the lines with many names alone
#   run.sh threads [NODES]  collections by 1, 2 and 4 threads, on all processors, beside GHC's; no part of the rest
set -eu
here=$(cd "$(dirname "$0")" && pwd)
work=$(mktemp -d)
trap 'rm -rf "$work"' EXIT

program=${GCTRACE:-}
if [ -z "$program" ]; then
  (cd "$here/../crates/gctrace" && rt run -- run --generations 1 < /dev/null)
  program=$(find "$here/../crates/gctrace/out" -type f -name gctrace -perm -u+x | head -n 1)
fi
blocks=40000
generations=1
plain=''
if command -v rustc > /dev/null; then
  rustc --edition 2021 -O -o "$work/plain" "$here/plain.rs"
  plain=$work/plain
fi
ghc=''
if command -v ghc > /dev/null; then
  ghc -O -threaded -rtsopts -outputdir "$work" -o "$work/live_tree" "$here/live_tree.hs" > /dev/null
  ghc=$work/live_tree
fi

# clocked COMMAND..: its wall time in nanoseconds
clocked() {
  local start
  start=$(date +%s%N)
  taskset -c 0 "$@" > /dev/null
  echo $(($(date +%s%N) - start))
}

# seconds COMMAND.. : wall time of the fastest of five runs, of more while they have taken less than two seconds, or of fewer
# once they have taken forty
seconds() {
  local best='' each runs=0 all=0
  while [ "$all" -lt 40000000000 ] && { [ "$runs" -lt 5 ] || [ "$all" -lt 2000000000 ]; }; do
    each=$(clocked "$@")
    if [ -z "$best" ] || [ "$each" -lt "$best" ]; then best=$each; fi
    runs=$((runs + 1))
    all=$((all + each))
  done
  awk -v n="$best" 'BEGIN { printf "%.4f", n / 1e9 }'
}

# in_turns COMMAND..: each command prints a number, and all are run in turn, five times, so that a slow minute slows all. The most
# of each
in_turns() {
  local round command
  for round in 1 2 3 4 5; do
    for command in "$@"; do printf '%s ' "$($command)"; done
    echo
  done | awk '{
    for (i = 1; i <= NF; i++) if (NR == 1 || $i > best[i]) best[i] = $i
    count = NF
  } END { for (i = 1; i <= count; i++) print best[i] }'
}

gctrace() { "$program" run --generations "$generations" --nursery 64 --blocks "$blocks" < "$1"; }
events() { "$program" replay --threads 4 --generations "$generations" --nursery 64 --blocks "$blocks" < "$1"; }
beside() { "$plain" "$blocks" "$generations" < "$1"; }
threaded() { "$program" run --threads "$threads" --cells "$cells" --generations "$generations" --nursery 64 --blocks "$blocks" < "$1"; }
export -f gctrace events beside threaded
export program plain blocks generations

measure() { seconds bash -c "$1 \"\$1\"" measure "$2"; }

# last_rate PROCESSORS PROGRAM NODES COLLECTIONS: millions of objects a second in the last collections of a trace, by when the
# lines of these are written. It counts from the line of the collection before them, so the trace has one more behind the lines
# that make objects and drop names
last_rate() {
  taskset -c "$1" bash -c "$2 \"\$1\"" live "$work/all" | while read -r line; do echo "$EPOCHREALTIME $line"; done | awk -v nodes="$3" -v collections="$4" '
    $2 == "collected" { ends[++count] = $1 }
    END { printf "%.2f", nodes * collections / (ends[count] - ends[count - collections]) / 1e6 }'
}

# copies TRACE OBJECTS COLLECTIONS: the best of five runs of each program, in turn
copies() {
  local rates
  "$here/traces.sh" "$1" "$2" $(($3 + 1)) > "$work/all"
  rates=$(in_turns "last_rate 0 gctrace $2 $3" ${plain:+"last_rate 0 beside $2 $3"})
  echo $rates | awk -v name="$1" -v objects="$2" '{
    printf "%s of %d objects: %.2f million objects a second", name, objects, $1
    if (NF > 1) printf "; plain %.2f, so %.2f of it", $2, $1 / $2
    print "" }'
}

copies_of_all() {
  copies graph 8000 1000
  copies tree 80000 100
  copies tree 800000 10
  copies mixed 80000 100
  generations=2 copies old 80000 100
  generations=2 copies beside 80000 100
  copies sizes 80000 100
}

# ghc_rate PROCESSORS SHAPE NODES COLLECTIONS THREADS
ghc_rate() { taskset -c "$1" "$ghc" "$2" "$3" "$4" +RTS "-N$5" | awk '{ printf "%.2f", $1 / 1e6 }'; }

# live NODES COLLECTIONS: the best of five runs of each program, in turn
live() {
  local rates
  "$here/traces.sh" tree "$1" $(($2 + 1)) > "$work/all"
  rates=$(in_turns "last_rate 0 gctrace $1 $2" ${plain:+"last_rate 0 beside $1 $2"} ${ghc:+"ghc_rate 0 tree $1 $2 1"})
  echo $rates | awk -v nodes="$1" -v plain="$plain" -v ghc="$ghc" '{
    printf "live tree of %d nodes: %.2f million objects a second", nodes, $1
    if (plain != "") printf "; plain %.2f, so %.2f of it", $2, $1 / $2
    if (ghc != "") printf "; ghc %.2f, so %.2f of it", $NF, $1 / $NF
    else printf "; no ghc here to compare with"
    print "" }'
}

# by N CELLS SHAPE OBJECTS COLLECTIONS: the rate of so many threads over cells of that kind
by() { threads=$1 cells=$2 last_rate "$all" threaded "$4" "$5"; }

# by_threads SHAPE OBJECTS COLLECTIONS: objects a second by 1, 2 and 4 threads over word cells, and by 4 over boxed ones; the best
# of five runs of each, in turn
by_threads() {
  local rates own=() theirs=() n
  all=0-$(($(nproc --all) - 1))
  "$here/traces.sh" "$1" "$2" $(($3 + 1)) > "$work/all"
  for n in '1 word' '2 word' '4 word' '4 box'; do own+=("by $n $1 $2 $3"); done
  for n in ${ghc:+1 2 4}; do theirs+=("ghc_rate $all $1 $2 $3 $n"); done
  rates=$(in_turns "${own[@]}" "${theirs[@]}")
  echo $rates | awk -v name="$1" -v objects="$2" '{
    split("1 2 4 4", threads); split("word word word box", cells)
    for (i = 1; i <= 4; i++) {
      printf "%s of %d objects, %d threads, %s cells: %.2f million objects a second, %.2f times one thread", name, objects, threads[i], cells[i], $i, $i / $1
      if (i < 4 && NF > 4) printf "; ghc %.2f, %.2f times one", $(4 + i), $(4 + i) / $5
      print ""
    } }'
}

# each PROGRAM COLLECTIONS: microseconds for a collection, by the time that the collections add
each() {
  awk -v made="$(measure "$1" "$work/made")" -v all="$(measure "$1" "$work/all")" -v collections="$2" 'BEGIN {
    printf "%.2f", (all - made) / collections * 1e6 }'
}

# little TEXT COLLECTIONS: how long each collection takes by which the one trace is longer than the other
little() {
  local own other=''
  own=$(each gctrace "$2")
  [ -n "$plain" ] && other=$(each beside "$2")
  awk -v text="$1" -v own="$own" -v other="$other" 'BEGIN {
    printf "%s: %.2f microseconds a collection", text, own
    if (other != "") printf "; plain %.2f, so %.1f times that", other, own / other
    print "" }'
}

# empty BLOCKS
empty() {
  "$here/traces.sh" empty 0 > "$work/made"
  "$here/traces.sh" empty 20000 > "$work/all"
  generations=2 blocks=$1 little "nothing, in $1 blocks" 20000
}

# young TEXT OBJECTS [gone]
young() {
  "$here/traces.sh" young "$2" 0 "${3:-}" > "$work/made"
  "$here/traces.sh" young "$2" 20000 "${3:-}" > "$work/all"
  generations=2 blocks=4096 little "ten young objects with their lines, $1" 20000
}

# members MEMBERS: what a collection pays for members of the old generation's set
members() {
  "$here/traces.sh" members old "$1" 200 > "$work/made"
  "$here/traces.sh" members young "$1" 200 > "$work/all"
  generations=2 blocks=4096 little "$1 members of the old generation's set, each noted once in two collections" 400
}

# stores: a store that the barrier notes, beside one that it doesn't
stores() {
  local noted other
  "$here/traces.sh" stores young 1000000 > "$work/all"
  "$here/traces.sh" stores old 1000000 > "$work/made"
  noted=$(generations=2 blocks=4096 measure gctrace "$work/all")
  other=$(generations=2 blocks=4096 measure gctrace "$work/made")
  awk -v noted="$noted" -v other="$other" 'BEGIN {
    printf "a million stores of a young object in an old one in %.3f s, of an old one in %.3f s: %.2f times that\n", noted, other, noted / other }'
}

# large_each WORDS: microseconds for a collection of ten live objects of so many words
large_each() {
  "$here/traces.sh" large "$1" 0 > "$work/made"
  "$here/traces.sh" large "$1" 1000 > "$work/all"
  each gctrace 1000
}

# collections_of_large: of large objects, and of such as are a hundred times as large
collections_of_large() {
  local small large
  small=$(large_each 1001)
  large=$(large_each 100001)
  awk -v small="$small" -v large="$large" 'BEGIN {
    printf "ten live objects of 1001 words: %.2f microseconds a collection; of 100001 words: %.2f, so %.2f times that\n", small, large, large / small }'
}

# scheduled: the trace with a schedule for each collection, in which each event is the next by itself
scheduled() { awk '{ print } $1 == "collect" { print "finish"; print "commit" }'; }

# collections_by_events NODES COLLECTIONS: what a collection costs as events of four workers
collections_by_events() {
  local one four
  "$here/traces.sh" tree "$1" 0 > "$work/run_made"
  "$here/traces.sh" tree "$1" "$2" > "$work/run_all"
  cp "$work/run_made" "$work/made"
  cp "$work/run_all" "$work/all"
  one=$(each gctrace "$2")
  scheduled < "$work/run_made" > "$work/made"
  scheduled < "$work/run_all" > "$work/all"
  four=$(each events "$2")
  awk -v nodes="$1" -v one="$one" -v four="$four" 'BEGIN {
    printf "tree of %d objects: %.0f microseconds a collection; as events of four workers %.0f, so %.2f times that\n", nodes, one, four, four / one }'
}

# puts NAMES: what a line costs that puts a word into one of so many named objects
puts() {
  "$here/traces.sh" names "$1" 0 > "$work/made"
  "$here/traces.sh" names "$1" 1000000 > "$work/all"
  local own other=''
  own=$(generations=2 each gctrace 1000000)
  [ -n "$plain" ] && other=$(generations=2 each beside 1000000)
  awk -v names="$1" -v own="$own" -v other="$other" 'BEGIN {
    printf "a put with %d names in use: %.0f nanoseconds", names, own * 1000
    if (other != "") printf "; plain %.0f, so %.2f times that", other * 1000, own / other
    print "" }'
}

lines_by_names() {
  for count in 100 10000 100000 1000000; do puts "$count"; done
}

# collections_of_little OBJECTS
collections_of_little() {
  empty 4096
  empty 65535
  young "no old ones" 0
  young "$1 old ones gone" "$1" gone
  young "$1 old ones" "$1"
  members 1000
  members 10000
  stores
}

case "${1:-}" in
  copies) copies_of_all; exit ;;
  live) live "${2:-2000000}" $((40000000 / ${2:-2000000})); exit ;;
  young) collections_of_little "${2:-100000}"; exit ;;
  large) collections_of_large; exit ;;
  events) collections_by_events "${2:-100000}" 20; exit ;;
  threads) for shape in tree wide list; do by_threads "$shape" "${2:-2000000}" 20; done; exit ;;
  names) if [ $# -gt 1 ]; then puts "$2"; else lines_by_names; fi; exit ;;
esac

copies_of_all
live 2000000 20
collections_of_little 100000
collections_of_large
collections_by_events 100000 20
lines_by_names

"$here/traces.sh" commands 100 > "$work/commands"
lines=$(wc -l < "$work/commands")
own=$(measure gctrace "$work/commands")
wc=$(seconds wc -l "$work/commands")
awk -v lines="$lines" -v own="$own" -v wc="$wc" 'BEGIN {
  printf "commands: %d lines in %.3f s, %.2f million lines a second; wc -l in %.4f s\n", lines, own, lines / own / 1e6, wc }'
