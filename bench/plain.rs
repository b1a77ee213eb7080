//! A plain collector to measure against: the same traces, one thread, one generation or two, nothing proved. Objects have a
//! header word, which a forwarding word replaces once the object is copied; copies are scanned block by block where they lie.
//!   plain [BLOCKS] [GENERATIONS]
use std::collections::HashMap;
use std::io::Read;

const BLOCK_WORDS: usize = 512;
const FORWARDED: u64 = 1 << 63;
const REMEMBERED: u64 = 1 << 62;

/// Objects of one age: blocks that are full, with their ends, and the one that is filled.
#[derive(Clone, Default)]
struct Area {
    full: Vec<(usize, usize)>,
    block: usize,
    used: usize,
    objects: usize,
}

/// How far an area is scanned: so many of its blocks, and so many words of the next.
#[derive(Clone, Copy, Default)]
struct Front {
    blocks: usize,
    words: usize,
}

/// Blocks of words in one stretch. A pointer is the number of a word, and 0 is nil: block 0 is never given out. With one
/// generation all objects are of one age. With two there are three ages: a new object comes to the next one by each
/// collection, and the last is the old generation.
struct Heap<const AGES: usize> {
    words: Vec<u64>,
    free: Vec<usize>,
    ages: Vec<u8>,
    areas: [Area; AGES],
    remembered: Vec<usize>,
    roots: Vec<u64>,
    free_roots: Vec<usize>,
    used_roots: Vec<usize>,
    place_of_root: Vec<usize>,
}

/// The header of an object with so many pointers and plain words.
fn header(pointers: usize, plain: usize) -> u64 {
    (pointers as u64) << 32 | plain as u64
}

fn pointers_of(header: u64) -> usize {
    ((header & !REMEMBERED) >> 32) as usize
}

fn size_of(header: u64) -> usize {
    1 + pointers_of(header) + (header & 0xffff_ffff) as usize
}

impl<const AGES: usize> Heap<AGES> {
    const OLDEST: usize = AGES - 1;

    fn new(blocks: usize) -> Self {
        Heap {
            words: vec![0; (blocks + 1) * BLOCK_WORDS],
            free: (1..=blocks).rev().collect(),
            ages: vec![0; blocks + 1],
            areas: std::array::from_fn(|_| Area::default()),
            remembered: Vec::new(),
            roots: Vec::new(),
            free_roots: Vec::new(),
            used_roots: Vec::new(),
            place_of_root: Vec::new(),
        }
    }

    /// The age of the object there. With one age nothing is read.
    fn age(&self, at: u64) -> usize {
        if AGES == 1 { 0 } else { self.ages[at as usize / BLOCK_WORDS] as usize }
    }

    /// Room for so many words, in the next free block where the last one is full.
    fn room(&mut self, age: usize, size: usize) -> usize {
        let area = &mut self.areas[age];
        if area.block == 0 || area.used + size > BLOCK_WORDS {
            if area.block != 0 {
                area.full.push((area.block, area.used));
            }
            area.block = self.free.pop().expect("heap full");
            area.used = 0;
            self.ages[area.block] = age as u8;
        }
        let at = area.block * BLOCK_WORDS + area.used;
        area.used += size;
        area.objects += 1;
        at
    }

    fn allocate(&mut self, pointers: usize, plain: usize) -> usize {
        let size = 1 + pointers + plain;
        let at = self.room(0, size);
        self.words[at] = header(pointers, plain);
        self.words[at + 1..at + size].fill(0);
        self.add_root(at as u64)
    }

    fn add_root(&mut self, at: u64) -> usize {
        let root = self.free_roots.pop().unwrap_or_else(|| {
            self.roots.push(0);
            self.place_of_root.push(0);
            self.roots.len() - 1
        });
        self.roots[root] = at;
        self.place_of_root[root] = self.used_roots.len();
        self.used_roots.push(root);
        root
    }

    fn release(&mut self, root: usize) {
        let place = self.place_of_root[root];
        self.used_roots.swap_remove(place);
        if let Some(&moved) = self.used_roots.get(place) {
            self.place_of_root[moved] = place;
        }
        self.free_roots.push(root);
    }

    /// The write barrier: an old object that leads to a younger one is remembered.
    fn store(&mut self, at: usize, field: usize, value: u64) {
        self.words[at + 1 + field] = value;
        if AGES > 1 && value != 0 && self.age(at as u64) == Self::OLDEST && self.age(value) < Self::OLDEST {
            self.remember(at);
        }
    }

    fn remember(&mut self, at: usize) {
        if self.words[at] & REMEMBERED == 0 {
            self.words[at] |= REMEMBERED;
            self.remembered.push(at);
        }
    }

    /// Where the object is now: if it isn't older than these, it is copied the first time.
    fn forward(&mut self, at: u64, last: usize) -> u64 {
        if at == 0 {
            return 0;
        }
        let age = self.age(at);
        if age > last {
            return at;
        }
        let from = at as usize;
        let header = self.words[from];
        if header & FORWARDED != 0 {
            return header & !FORWARDED;
        }
        let size = size_of(header);
        let to = self.room((age + 1).min(Self::OLDEST), size);
        self.words.copy_within(from..from + size, to);
        self.words[from] = FORWARDED | to as u64;
        to as u64
    }

    /// Forwards the pointers of an object, and remembers it if it is old and leads to a younger one.
    fn scan_object(&mut self, at: usize, age: usize, last: usize) -> usize {
        let header = self.words[at] & !REMEMBERED;
        if AGES > 1 {
            self.words[at] = header;
        }
        let mut leads_younger = false;
        for field in at + 1..at + 1 + pointers_of(header) {
            let value = self.forward(self.words[field], last);
            self.words[field] = value;
            leads_younger |= AGES > 1 && value != 0 && self.age(value) < Self::OLDEST;
        }
        if AGES > 1 && age == Self::OLDEST && leads_younger {
            self.remember(at);
        }
        size_of(header)
    }

    /// Scans the copies of one age, block by block, up to the last copy, and says whether there were any.
    fn scan_area(&mut self, age: usize, front: &mut Front, last: usize) -> bool {
        let mut any = false;
        loop {
            let area = &self.areas[age];
            let (block, end, is_full) = match area.full.get(front.blocks) {
                Some(&(block, used)) => (block, used, true),
                None => (area.block, area.used, false),
            };
            if !is_full && front.words == end {
                return any;
            }
            let mut at = block * BLOCK_WORDS + front.words;
            while at < block * BLOCK_WORDS + end {
                at += self.scan_object(at, age, last);
            }
            any = true;
            *front = if is_full { Front { blocks: front.blocks + 1, words: 0 } } else { Front { words: end, ..*front } };
        }
    }

    /// Scans until nothing is left.
    fn scan_all(&mut self, mut fronts: [Front; AGES], last: usize) {
        loop {
            let mut any = false;
            for age in 0..AGES {
                any |= self.scan_area(age, &mut fronts[age], last);
            }
            if !any || AGES == 1 {
                return;
            }
        }
    }

    /// Takes the areas up to this age away, and says where scanning begins in each.
    fn open(&mut self, last: usize) -> (Vec<Area>, [Front; AGES]) {
        let old = (0..=last).map(|age| std::mem::take(&mut self.areas[age])).collect();
        let fronts = std::array::from_fn(|age| Front {
            blocks: self.areas[age].full.len(),
            words: self.areas[age].used,
        });
        (old, fronts)
    }

    /// How many objects of these ages are kept, and how many freed.
    fn collect(&mut self, last: usize) -> (usize, usize) {
        let older: usize = self.areas[last + 1..].iter().map(|it| it.objects).sum();
        let (old, fronts) = self.open(last);
        for i in 0..self.used_roots.len() {
            let root = self.used_roots[i];
            self.roots[root] = self.forward(self.roots[root], last);
        }
        for at in std::mem::take(&mut self.remembered) {
            if last < Self::OLDEST {
                self.scan_object(at, Self::OLDEST, last);
            }
        }
        self.scan_all(fronts, last);
        let blocks = old.iter().flat_map(|it| it.full.iter().map(|full| full.0).chain([it.block]));
        self.free.extend(blocks.filter(|block| *block != 0));
        let kept = self.areas.iter().map(|it| it.objects).sum::<usize>() - older;
        let before: usize = old.iter().map(|it| it.objects).sum();
        (kept, before - kept)
    }
}

fn carry_out<'a, const AGES: usize>(heap: &mut Heap<AGES>, names: &mut HashMap<&'a str, usize>, line: &'a str) {
    let words: Vec<&str> = line.split_ascii_whitespace().collect();
    let number = |at: usize| words[at].parse::<usize>().expect("a number");
    match words[0] {
        "new" => {
            let root = heap.allocate(number(3), number(4));
            names.insert(words[1], root);
        }
        "set" => {
            let at = heap.roots[names[words[1]]] as usize;
            let value = if words[3] == "nil" { 0 } else { heap.roots[names[words[3]]] };
            heap.store(at, number(2), value);
        }
        "put" => {
            let at = heap.roots[names[words[1]]] as usize;
            let field = at + 1 + pointers_of(heap.words[at]) + number(2);
            heap.words[field] = number(3) as u64;
        }
        "drop" => {
            heap.release(names.remove(words[1]).expect("a name"));
        }
        "collect" => {
            // Of three ages the first two are generation 0.
            let generation = number(1);
            let (kept, freed) = heap.collect(if AGES == 1 { 0 } else { generation + 1 });
            println!("collected {generation}: {kept} kept, {freed} freed");
        }
        "census" => println!("{} objects", heap.areas.iter().map(|it| it.objects).sum::<usize>()),
        other => panic!("no such command: {other}"),
    }
}

fn carry_all_out<const AGES: usize>(blocks: usize, text: &str) {
    let mut heap = Heap::<AGES>::new(blocks);
    let mut names = HashMap::new();
    for line in text.lines() {
        carry_out(&mut heap, &mut names, line);
    }
}

fn main() {
    let argument = |at: usize, otherwise: usize| {
        std::env::args().nth(at).map_or(otherwise, |it| it.parse().expect("a number"))
    };
    let mut text = String::new();
    std::io::stdin().read_to_string(&mut text).expect("a trace");
    match argument(2, 1) {
        1 => carry_all_out::<1>(argument(1, 4096), &text),
        _ => carry_all_out::<3>(argument(1, 4096), &text),
    }
}
