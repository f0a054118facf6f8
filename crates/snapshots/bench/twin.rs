// The structures of a snapshot in plain Rust: the same words, directories, shortcuts and walks, without counters.
use std::hint::black_box;
use std::time::Instant;

const SUPERBLOCK: usize = 512;
const FAN: usize = 4;
const GAP: u32 = 16;

fn next(state: u64) -> u64 {
    let a = state ^ (state << 13);
    let b = a ^ (a >> 7);
    b ^ (b << 17)
}

struct Bits {
    words: Vec<u64>,
    counts: Vec<u32>,
    samples: Vec<u32>,
    len: usize,
    ones: u32,
}

// Of two halves of `width` places each, from place `low`, the first place of that with the `j`-th one.
fn half_with_one(word: u64, j: u32, low: u32, width: u32) -> u32 {
    let middle = low + width;
    if (word & ((1 << middle) - 1)).count_ones() < j { middle } else { low }
}

fn place_of_one(word: u64, j: u32) -> u32 {
    [32, 16, 8, 4, 2, 1]
        .iter()
        .fold(0, |low, width| half_with_one(word, j, low, *width))
}

impl Bits {
    fn new(bits: &[bool]) -> Bits {
        let mut words = vec![0u64; bits.len().div_ceil(64)];
        for (place, bit) in bits.iter().enumerate() {
            words[place / 64] |= u64::from(*bit) << (place % 64);
        }
        let mut counts = Vec::new();
        let mut samples = Vec::new();
        let mut ones = 0;
        for (superblock, block) in words.chunks(SUPERBLOCK / 64).enumerate() {
            counts.push(ones);
            let more: u32 = block.iter().map(|word| word.count_ones()).sum();
            while samples.len() as u32 * (SUPERBLOCK as u32) < ones + more {
                samples.push(superblock as u32);
            }
            ones += more;
        }
        Bits {
            words,
            counts,
            samples,
            len: bits.len(),
            ones,
        }
    }

    fn get(&self, p: usize) -> bool {
        self.words[p / 64] >> (p % 64) & 1 == 1
    }

    fn rank1(&self, p: usize) -> u32 {
        if p == self.len {
            return self.ones;
        }
        let mut count = self.counts[p / SUPERBLOCK];
        for i in p / SUPERBLOCK * (SUPERBLOCK / 64)..p / 64 {
            count += self.words[i].count_ones();
        }
        if p % 64 > 0 {
            count += (self.words[p / 64] & ((1 << (p % 64)) - 1)).count_ones();
        }
        count
    }

    fn select1(&self, j: u32) -> usize {
        let sample = (j as usize - 1) / SUPERBLOCK;
        let mut low = self.samples[sample] as usize;
        let mut high = match self.samples.get(sample + 1) {
            Some(last) => *last as usize + 1,
            None => self.counts.len(),
        };
        while high - low > 1 {
            let middle = low + (high - low) / 2;
            if self.counts[middle] < j {
                low = middle;
            } else {
                high = middle;
            }
        }
        let mut rest = j - self.counts[low];
        let mut i = low * (SUPERBLOCK / 64);
        while self.words[i].count_ones() < rest {
            rest -= self.words[i].count_ones();
            i += 1;
        }
        i * 64 + place_of_one(self.words[i], rest) as usize
    }
}

struct Perm {
    values: Vec<u32>,
    groups: Vec<(u32, u32)>,
    targets: Vec<u32>,
}

impl Perm {
    fn new(values: Vec<u32>) -> Perm {
        let mut shortcuts = vec![None; values.len()];
        let mut seen = vec![false; values.len()];
        for leader in 0..values.len() as u32 {
            if seen[leader as usize] {
                continue;
            }
            let (mut place, mut stored, mut gap) = (leader, leader, 0);
            seen[leader as usize] = true;
            while values[place as usize] != leader {
                place = values[place as usize];
                seen[place as usize] = true;
                gap += 1;
                if gap == GAP {
                    shortcuts[place as usize] = Some(stored);
                    stored = place;
                    gap = 0;
                }
            }
            if stored != leader {
                shortcuts[leader as usize] = Some(stored);
            }
        }
        let mut groups = Vec::new();
        let mut targets = Vec::new();
        for chunk in shortcuts.chunks(32) {
            let before = targets.len() as u32;
            let mut marks = 0u32;
            for (bit, target) in chunk.iter().enumerate() {
                if let Some(target) = target {
                    marks |= 1 << bit;
                    targets.push(*target);
                }
            }
            groups.push((marks, before));
        }
        Perm {
            values,
            groups,
            targets,
        }
    }

    fn shortcut(&self, place: u32) -> Option<u32> {
        let (marks, before) = self.groups[(place / 32) as usize];
        let bit = place % 32;
        if marks >> bit & 1 == 0 {
            return None;
        }
        Some(self.targets[(before + (marks & ((1 << bit) - 1)).count_ones()) as usize])
    }

    fn inverse(&self, v: u32) -> u32 {
        let mut place = v;
        loop {
            if let Some(target) = self.shortcut(place) {
                let mut place = target;
                while self.values[place as usize] != v {
                    place = self.values[place as usize];
                }
                return place;
            }
            let next = self.values[place as usize];
            if next == v {
                return place;
            }
            place = next;
        }
    }
}

#[derive(Clone, Copy)]
struct Anchored {
    index: u32,
    offset: u32,
    x: i64,
    y: i64,
    from: u32,
    len: u32,
}

struct Snapshot {
    height: u32,
    base: (i64, i64),
    tree: Bits,
    present: Bits,
    lasts: Bits,
    perm: Perm,
    offsets: Vec<u32>,
    lengths: Vec<u32>,
    starts: Vec<u32>,
}

fn even_bits(code: u64) -> i64 {
    let mut bits = code & 0x5555_5555_5555_5555;
    bits = (bits | bits >> 1) & 0x3333_3333_3333_3333;
    bits = (bits | bits >> 2) & 0x0f0f_0f0f_0f0f_0f0f;
    bits = (bits | bits >> 4) & 0x00ff_00ff_00ff_00ff;
    bits = (bits | bits >> 8) & 0x0000_ffff_0000_ffff;
    ((bits | bits >> 16) & 0xffff_ffff) as i64
}

impl Snapshot {
    fn leaf_cell(&self, leaf: u32) -> (i64, i64) {
        let mut square = (self.tree.len / FAN) as u32 + leaf;
        let mut code = 0;
        let mut weight = 1;
        for _ in 0..self.height {
            let place = self.tree.select1(square);
            code += (place % FAN) as u64 * weight;
            weight *= FAN as u64;
            square = (place / FAN) as u32;
        }
        (self.base.0 + even_bits(code), self.base.1 + even_bits(code >> 1))
    }

    fn block(&self, index: u32, rank: u32, cell: (i64, i64)) -> Anchored {
        let rank = rank as usize;
        Anchored {
            index,
            offset: self.offsets[rank],
            x: cell.0,
            y: cell.1,
            from: self.starts[rank],
            len: self.lengths[rank],
        }
    }

    fn find(&self, index: u32) -> Option<Anchored> {
        if !self.present.get(index as usize) {
            return None;
        }
        let rank = self.present.rank1(index as usize);
        let place = self.perm.inverse(rank);
        let leaf = self.lasts.rank1(place as usize);
        Some(self.block(index, rank, self.leaf_cell(leaf)))
    }

    fn leaves(&self) -> u32 {
        self.lasts.ones
    }

    fn members(&self, leaf: u32, cell: (i64, i64), mut give: impl FnMut(Anchored)) {
        let mut place = if leaf == 0 { 0 } else { self.lasts.select1(leaf) + 1 };
        loop {
            let rank = self.perm.values[place];
            let index = self.present.select1(rank + 1) as u32;
            give(self.block(index, rank, cell));
            if self.lasts.get(place) {
                return;
            }
            place += 1;
        }
    }
}

// The bits of y and x by turns, the highest first.
fn morton(x: i64, y: i64) -> u64 {
    (0..32).rev().fold(0, |code, bit| code << 2 | ((y >> bit & 1) as u64) << 1 | (x >> bit & 1) as u64)
}

// The snapshot of the first period of four instants, whose logs are empty but for the first object's.
fn made(text: &str) -> (Snapshot, u32) {
    let rows: Vec<Vec<i64>> = text
        .lines()
        .map(|line| line.split(',').map(|word| word.parse().unwrap()).collect())
        .collect();
    let (left, below) = (rows.iter().map(|r| r[2]).min().unwrap(), rows.iter().map(|r| r[3]).min().unwrap());
    let (right, above) = (rows.iter().map(|r| r[2]).max().unwrap(), rows.iter().map(|r| r[3]).max().unwrap());
    let extent = (right - left).max(above - below) + 1;
    let height = (1..21).find(|h| extent <= 1 << h).unwrap();
    let present: Vec<bool> = rows.iter().map(|r| r[1] < 4).collect();
    let here: Vec<&Vec<i64>> = rows.iter().filter(|r| r[1] < 4).collect();
    let count = here.len();
    let mut keys: Vec<u64> = here
        .iter()
        .enumerate()
        .map(|(rank, r)| morton(r[2] - left, r[3] - below) << 20 | rank as u64)
        .collect();
    keys.sort();
    let codes: Vec<u64> = keys.iter().map(|key| key >> 20).collect();
    let lasts: Vec<bool> = (0..count).map(|i| codes.get(i + 1) != Some(&codes[i])).collect();
    let mut tree = Vec::new();
    for level in (0..height).rev() {
        let mut before = u64::MAX;
        for code in &codes {
            let prefix = code >> (2 * level);
            if prefix / 4 != before {
                before = prefix / 4;
                tree.extend([false; 4]);
            }
            let group = tree.len() - 4;
            tree[group + (prefix % 4) as usize] = true;
        }
    }
    let lengths: Vec<u32> = here.iter().map(|r| if r[1] == 0 { 3 } else { 0 }).collect();
    let starts = lengths
        .iter()
        .scan(0, |sum, len| {
            let start = *sum;
            *sum += len;
            Some(start)
        })
        .collect();
    let objects = present.len() as u32;
    let snapshot = Snapshot {
        height,
        base: (left, below),
        tree: Bits::new(&tree),
        present: Bits::new(&present),
        lasts: Bits::new(&lasts),
        perm: Perm::new(keys.iter().map(|key| (key & 0xf_ffff) as u32).collect()),
        offsets: here.iter().map(|r| r[1] as u32).collect(),
        lengths,
        starts,
    };
    (snapshot, objects)
}

fn folded(all: i64, block: Anchored) -> i64 {
    let more = i64::from(block.index) ^ i64::from(block.offset) ^ block.x ^ block.y;
    all.wrapping_mul(31) ^ more ^ i64::from(block.from) ^ i64::from(block.len)
}

fn main() {
    let text = std::io::read_to_string(std::io::stdin()).unwrap();
    let (snapshot, objects) = made(&text);
    let snapshot = black_box(snapshot);
    let start = Instant::now();
    let mut state = 1u64;
    let mut all = 0i64;
    for _ in 0..1_000_000 {
        state = next(state);
        all = match snapshot.find((state >> 32) as u32 % objects) {
            Some(block) => folded(all, block),
            None => !all,
        };
    }
    println!("{objects} find {all} {} us", start.elapsed().as_micros());
    let start = Instant::now();
    let mut all = 0i64;
    for _ in 0..100 {
        let mut sum = 0i64;
        for leaf in 0..snapshot.leaves() {
            let cell = snapshot.leaf_cell(leaf);
            snapshot.members(leaf, cell, |block| sum = folded(sum, block));
        }
        all = all.wrapping_mul(31) ^ sum;
    }
    println!("{objects} leaf_cell and members {all} {} us", start.elapsed().as_micros());
    let start = Instant::now();
    for _ in 0..100 {
        let mut sum = 0i64;
        for leaf in 0..snapshot.leaves() {
            let cell = snapshot.leaf_cell(leaf);
            sum = sum.wrapping_mul(31) ^ cell.0 ^ cell.1;
        }
        all = all.wrapping_mul(31) ^ sum;
    }
    println!("{objects} leaf_cell {all} {} us", start.elapsed().as_micros());
}
