#!/usr/bin/env bash
# Prints a trace to measure with.
#   traces.sh graph [OBJECTS] [COLLECTIONS]   objects of 4 words that share and form cycles, all reached from one name, collected again and again
#   traces.sh tree [NODES] [COLLECTIONS]      a binary tree of such objects, reached from its root
#   traces.sh old [NODES] [COLLECTIONS]       the same tree of two generations, all old, collected with them
#   traces.sh beside [NODES] [COLLECTIONS]    the same, and an object made before each collection, which two steps leave young
#   traces.sh levels [NODES] [COLLECTIONS]    a tree of which each second level has survived one collection more
#   traces.sh sizes [NODES] [COLLECTIONS]     such a tree whose objects have 0 to 5 words beside two pointers
#   traces.sh mixed [NODES] [COLLECTIONS]     the same tree, laid out in random order by a name for each node, in that order
#   traces.sh wide [OBJECTS] [COLLECTIONS]    so many such objects with a name each, that lead to two earlier ones in random order
#   traces.sh list [OBJECTS] [COLLECTIONS]    a list of objects of one pointer and one word, reached from its end
#   traces.sh young [OBJECTS] [COLLECTIONS] [gone]   such a tree in random order, which has become old, reached from one name (gone: freed then);
#                                             and ten objects made before each collection of the young and dropped after it
#   traces.sh members young|old [MEMBERS] [ROUNDS]   old objects with names, whose pointers are made to lead to a young object (old: to
#                                             an old one) before every second collection of the young
#   traces.sh stores young|old [STORES]       such an old object, whose pointer is made to lead to a young one (old: to an old one) so often
#   traces.sh empty [COLLECTIONS]             collections of a heap without objects
#   traces.sh large [WORDS] [COLLECTIONS]     ten objects of so many words, collected again and again
#   traces.sh names [NAMES] [PUTS]            objects with a name each, and words put into them by names in an order that jumps about
#   traces.sh commands [BATCHES]              batches of 10,000 commands: new, put, set and drop of 2,500 names, and a collection after each
# The nursery has to hold 8,000 objects of 4 words.
set -eu

graph() {
  awk -v objects="$1" -v collections="$2" 'BEGIN {
    for (i = 0; i < objects; i++) printf "new n%d 0 2 1\nput n%d 0 %d\n", i, i, i
    for (i = 0; i < objects; i++) printf "set n%d 0 n%d\nset n%d 1 n%d\n", i, (i + 1) % objects, i, (7 * i + 3) % objects
    for (i = 1; i < objects; i++) printf "drop n%d\n", i
    for (i = 0; i < collections; i++) print "collect 0"
    print "census"
  }'
}

tree() {
  awk -v nodes="$1" -v collections="$2" 'BEGIN {
    print "new n0 0 2 1"
    for (i = 1; i < nodes; i++) {
      if (i % 8000 == 0) print "collect 0"
      parent = int((i - 1) / 2)
      printf "new n%d 0 2 1\nput n%d 0 %d\nset n%d %d n%d\n", i, i, i, parent, (i + 1) % 2, i
      if (i % 2 == 0 && parent > 0) printf "drop n%d\n", parent
    }
    for (i = int(nodes / 2); i < nodes; i++) if (i > 0) printf "drop n%d\n", i
    for (i = 0; i < collections; i++) print "collect 0"
    print "census"
  }'
}

# old: each of the first three collections moves what is left of the young by a step
old() {
  tree "$1" 3 | sed '$d'
  awk -v collections="$2" 'BEGIN {
    for (i = 0; i < collections; i++) print "collect 1"
    print "census"
  }'
}

# beside: with one step nothing is young after a collection, as of `old`
beside() {
  tree "$1" 3 | sed '$d'
  awk -v collections="$2" 'BEGIN {
    for (i = 0; i < collections; i++) {
      if (i > 1) printf "drop y%d\n", i - 2
      printf "new y%d 0 2 1\ncollect 1\n", i
    }
    print "census"
  }'
}

# levels: all pointers lead from a level to the other kind
levels() {
  awk -v nodes="$1" -v collections="$2" 'BEGIN {
    for (i = 1; i <= nodes; i++) level[i] = i == 1 ? 0 : 1 - level[int(i / 2)]
    for (i = 1; i <= nodes; i++) if (level[i] == 0) printf "new n%d 0 2 1\n", i
    print "collect 0"
    for (i = 1; i <= nodes; i++) if (level[i] == 1) printf "new n%d 0 2 1\n", i
    for (i = 2; i <= nodes; i++) printf "set n%d %d n%d\n", int(i / 2), i % 2, i
    for (i = 2; i <= nodes; i++) printf "drop n%d\n", i
    for (i = 0; i < collections; i++) print "collect 0"
    print "census"
  }'
}

sizes() {
  awk -v nodes="$1" -v collections="$2" 'BEGIN {
    print "new n0 0 2 1"
    for (i = 1; i < nodes; i++) {
      if (i % 4000 == 0) print "collect 0"
      parent = int((i - 1) / 2)
      printf "new n%d 0 2 %d\nset n%d %d n%d\n", i, i * 7919 % 6, parent, (i + 1) % 2, i
      if (i % 2 == 0 && parent > 0) printf "drop n%d\n", parent
    }
    for (i = int(nodes / 2); i < nodes; i++) if (i > 0) printf "drop n%d\n", i
    for (i = 0; i < collections; i++) print "collect 0"
    print "census"
  }'
}

wide() {
  awk -v objects="$1" -v collections="$2" 'BEGIN {
    srand(1)
    for (i = 0; i < objects; i++) {
      if (i > 0 && i % 8000 == 0) print "collect 0"
      printf "new n%d 0 2 1\n", i
      if (i > 0) printf "set n%d 0 n%d\nset n%d 1 n%d\n", i, int(rand() * i), i, int(rand() * i)
    }
    for (i = 0; i < collections; i++) print "collect 0"
    print "census"
  }'
}

list() {
  awk -v objects="$1" -v collections="$2" 'BEGIN {
    for (i = 0; i < objects; i++) {
      if (i > 0 && i % 8000 == 0) print "collect 0"
      printf "new n%d 0 1 1\n", i
      if (i > 0) printf "set n%d 0 n%d\ndrop n%d\n", i, i - 1, i - 1
    }
    for (i = 0; i < collections; i++) print "collect 0"
    print "census"
  }'
}

# shuffled_tree NODES: a tree whose nodes are made in random order
shuffled_tree() {
  awk -v nodes="$1" 'BEGIN {
    srand(1)
    for (i = 0; i < nodes; i++) order[i] = i
    for (i = nodes - 1; i > 0; i--) { j = int(rand() * (i + 1)); it = order[i]; order[i] = order[j]; order[j] = it }
    for (i = 0; i < nodes; i++) {
      if (i > 0 && i % 8000 == 0) print "collect 0"
      printf "new n%d 0 2 1\n", order[i]
    }
    for (i = 1; i < nodes; i++) printf "set n%d %d n%d\n", int((i - 1) / 2), (i + 1) % 2, i
  }'
}

mixed() {
  shuffled_tree "$1"
  awk -v collections="$2" 'BEGIN {
    for (i = 0; i < collections; i++) print "collect 0"
    print "census"
  }'
}

young() {
  shuffled_tree "$1"
  awk -v objects="$1" -v collections="$2" -v gone="$3" 'BEGIN {
    for (i = 1; i < objects; i++) printf "drop n%d\n", i
    print "collect 0\ncollect 0"
    if (gone != "") print "drop n0\ncollect 1"
    print "census"
    for (i = 0; i < collections; i++) {
      for (j = 0; j < 10; j++) printf "new y%d 0 2 1\n", j
      print "collect 0"
      for (j = 0; j < 10; j++) printf "drop y%d\n", j
    }
    print "census"
  }'
}

large() {
  awk -v words="$1" -v collections="$2" 'BEGIN {
    for (i = 0; i < 10; i++) printf "new l%d 0 0 %d\n", i, words - 1
    for (i = 0; i < collections; i++) print "collect 0"
    print "census"
  }'
}

# old_ones OBJECTS: old objects with names, and one more, old
old_ones() {
  awk -v objects="$1" 'BEGIN {
    for (i = 0; i < objects; i++) printf "new n%d 0 2 1\n", i
    print "new old 0 2 1\ncollect 0\ncollect 0"
  }'
}

members() {
  old_ones "$2"
  awk -v target="$1" -v objects="$2" -v rounds="$3" 'BEGIN {
    for (r = 0; r < rounds; r++) {
      print "new young 0 2 1"
      for (i = 0; i < objects; i++) printf "set n%d 0 %s\n", i, target
      print "drop young\ncollect 0\ncollect 0"
    }
    print "census"
  }'
}

stores() {
  old_ones 1
  awk -v target="$1" -v stores="$2" 'BEGIN {
    print "new young 0 2 1"
    for (i = 0; i < stores; i++) printf "set n0 %d %s\n", i % 2, target
    print "census"
  }'
}

names() {
  awk -v names="$1" -v puts="$2" 'BEGIN {
    for (i = 0; i < names; i++) {
      if (i > 0 && i % 8000 == 0) print "collect 0"
      printf "new n%d 0 0 1\n", i
    }
    for (i = 0; i < puts; i++) { it = (it * 8021 + 104729) % names; printf "put n%d 0 %d\n", it, i }
    print "census"
  }'
}

empty() {
  awk -v collections="$1" 'BEGIN {
    for (i = 0; i < collections; i++) print "collect 0"
    print "census"
  }'
}

commands() {
  awk -v batches="$1" 'BEGIN {
    print "new root 0 1 0"
    for (b = 0; b < batches; b++) {
      for (i = 0; i < 2500; i++) printf "new n%d 0 1 1\nput n%d 0 %d\nset n%d 0 root\ndrop n%d\n", i, i, b, i, i
      print "collect 0"
    }
    print "census"
  }'
}

case "${1:-}" in
  graph) graph "${2:-8000}" "${3:-1000}" ;;
  tree) tree "${2:-80000}" "${3:-100}" ;;
  old) old "${2:-80000}" "${3:-100}" ;;
  beside) beside "${2:-80000}" "${3:-100}" ;;
  levels) levels "${2:-7000}" "${3:-1}" ;;
  sizes) sizes "${2:-80000}" "${3:-100}" ;;
  mixed) mixed "${2:-80000}" "${3:-100}" ;;
  wide) wide "${2:-500000}" "${3:-20}" ;;
  list) list "${2:-500000}" "${3:-20}" ;;
  young) young "${2:-100000}" "${3:-20000}" "${4:-}" ;;
  members) members "${2:-young}" "${3:-1000}" "${4:-200}" ;;
  stores) stores "${2:-young}" "${3:-1000000}" ;;
  names) names "${2:-100000}" "${3:-1000000}" ;;
  empty) empty "${2:-20000}" ;;
  large) large "${2:-100001}" "${3:-1000}" ;;
  commands) commands "${2:-100}" ;;
  *) sed -n '2,21s/^# //p' "$0" >&2; exit 2 ;;
esac
