// Reads, writes and checks the bytes of an index file in plain Rust: the same lists, directories and passes, without counters.
use std::hint::black_box;
use std::io::Read;
use std::time::Instant;

const SUPERBLOCK: u32 = 512;
const GAP: u32 = 16;

include!("../../index_format/bench/file.rs");

impl BitList {
    fn get(&self, i: u32) -> bool {
        self.words[(i / 64) as usize] >> (i % 64) & 1 == 1
    }
}

// Bits with their directory: the ones before each superblock, and the superblock of each 512th one.
struct Bits {
    list: BitList,
    counts: Vec<u32>,
    samples: Vec<u32>,
    ones: u32,
}

impl Bits {
    fn new(list: BitList) -> Bits {
        let (mut counts, mut samples, mut ones) = (Vec::new(), Vec::new(), 0);
        for (superblock, block) in list.words.chunks(SUPERBLOCK as usize / 64).enumerate() {
            counts.push(ones);
            let more: u32 = block.iter().map(|word| word.count_ones()).sum();
            while samples.len() as u32 * SUPERBLOCK < ones + more {
                samples.push(superblock as u32);
            }
            ones += more;
        }
        Bits {
            list,
            counts,
            samples,
            ones,
        }
    }

    fn rank1(&self, p: u32) -> u32 {
        if p == self.list.len {
            return self.ones;
        }
        let mut count = self.counts[(p / SUPERBLOCK) as usize];
        for i in p / SUPERBLOCK * (SUPERBLOCK / 64)..p / 64 {
            count += self.list.words[i as usize].count_ones();
        }
        if p % 64 > 0 {
            count += (self.list.words[(p / 64) as usize] & ((1 << (p % 64)) - 1)).count_ones();
        }
        count
    }

    fn select1(&self, j: u32) -> u32 {
        let sample = ((j - 1) / SUPERBLOCK) as usize;
        let mut low = self.samples[sample] as usize;
        let mut high = match self.samples.get(sample + 1) {
            Some(last) => *last as usize + 1,
            None => self.counts.len(),
        };
        while high - low > 1 {
            let middle = low + (high - low) / 2;
            if self.counts[middle] < j {
                low = middle;
            } else {
                high = middle;
            }
        }
        let mut rest = j - self.counts[low];
        let mut i = low * (SUPERBLOCK as usize / 64);
        while self.list.words[i].count_ones() < rest {
            rest -= self.list.words[i].count_ones();
            i += 1;
        }
        let mut word = self.list.words[i];
        for _ in 1..rest {
            word &= word - 1;
        }
        i as u32 * 64 + word.trailing_zeros()
    }
}

// A permutation with its shortcuts.
struct Perm {
    values: Vec<u32>,
    groups: Vec<(u32, u32)>,
    targets: Vec<u32>,
}

impl Perm {
    fn check(values: Vec<u32>) -> Option<Perm> {
        let mut met = vec![false; values.len()];
        for value in &values {
            let met = met.get_mut(*value as usize)?;
            if *met {
                return None;
            }
            *met = true;
        }
        let mut shortcuts = vec![None; values.len()];
        let mut seen = vec![false; values.len()];
        for leader in 0..values.len() as u32 {
            if seen[leader as usize] {
                continue;
            }
            let (mut place, mut stored, mut gap) = (leader, leader, 0);
            seen[leader as usize] = true;
            while values[place as usize] != leader {
                place = values[place as usize];
                seen[place as usize] = true;
                gap += 1;
                if gap == GAP {
                    shortcuts[place as usize] = Some(stored);
                    stored = place;
                    gap = 0;
                }
            }
            if stored != leader {
                shortcuts[leader as usize] = Some(stored);
            }
        }
        let (mut groups, mut targets) = (Vec::new(), Vec::new());
        for chunk in shortcuts.chunks(32) {
            let before = targets.len() as u32;
            let mut marks = 0u32;
            for (bit, target) in chunk.iter().enumerate() {
                if let Some(target) = target {
                    marks |= 1 << bit;
                    targets.push(*target);
                }
            }
            groups.push((marks, before));
        }
        Some(Perm {
            values,
            groups,
            targets,
        })
    }
}

#[derive(Clone, Copy)]
struct Anchored {
    offset: u32,
    x: i64,
    y: i64,
    from: u32,
    len: u32,
}

struct Snapshot {
    tree: Bits,
    present: Bits,
    offsets: Vec<u32>,
    lasts: Bits,
    perm: Perm,
    lengths: Vec<u32>,
    starts: Vec<u32>,
}

fn is_tree(bits: &BitList, height: u32) -> bool {
    if bits.len == 0 {
        return true;
    }
    let (mut start, mut groups) = (0, 1);
    for _ in 0..height {
        let (mut place, mut ones) = (start, 0);
        for _ in 0..groups {
            if bits.len - place < 4 {
                return false;
            }
            let found: u32 = (place..place + 4).map(|i| u32::from(bits.get(i))).sum();
            if found == 0 {
                return false;
            }
            ones += found;
            place += 4;
        }
        start += 4 * groups;
        groups = ones;
    }
    start == bits.len
}

impl Snapshot {
    fn check(frame: &Frame, instants: u32, mut start: u32, period: Period) -> Option<Snapshot> {
        if period.offsets.iter().any(|offset| *offset >= instants) || !is_tree(&period.tree, frame.height) {
            return None;
        }
        let tree = Bits::new(period.tree);
        let leaves = tree.ones + u32::from(tree.list.len > 0) - tree.list.len / 4;
        let (mut cells, mut is_last) = (0, true);
        for place in 0..period.lasts.len {
            is_last = period.lasts.get(place);
            cells += u32::from(is_last);
        }
        if !is_last || cells != leaves {
            return None;
        }
        let perm = &period.perm;
        for place in 1..period.lasts.len {
            let i = place as usize;
            if !period.lasts.get(place - 1) && perm[i] <= perm[i - 1] {
                return None;
            }
        }
        let mut starts = Vec::with_capacity(period.lengths.len());
        for len in &period.lengths {
            starts.push(start);
            start += len;
        }
        Some(Snapshot {
            tree,
            present: Bits::new(period.present),
            offsets: period.offsets,
            lasts: Bits::new(period.lasts),
            perm: Perm::check(period.perm)?,
            lengths: period.lengths,
            starts,
        })
    }

    // The blocks of a leaf's cell.
    fn add_members(&self, leaf: u32, cell: (i64, i64), blocks: &mut [Option<Anchored>]) {
        let mut place = if leaf == 0 { 0 } else { self.lasts.select1(leaf) + 1 };
        loop {
            let rank = self.perm.values[place as usize] as usize;
            let index = self.present.select1(rank as u32 + 1);
            blocks[index as usize] = Some(Anchored {
                offset: self.offsets[rank],
                x: cell.0,
                y: cell.1,
                from: self.starts[rank],
                len: self.lengths[rank],
            });
            if self.lasts.list.get(place) {
                return;
            }
            place += 1;
        }
    }

    // The blocks by object: a walk over the squares of the tree in Morton order.
    fn blocks(&self, frame: &Frame, objects: usize) -> Vec<Option<Anchored>> {
        let mut blocks = vec![None; objects];
        if self.tree.list.len == 0 {
            return blocks;
        }
        let inner = self.tree.list.len / 4 - 1;
        let mut stack = vec![(0u32, 0u32, frame.base.0, frame.base.1)];
        while let Some((level, group, x, y)) = stack.pop() {
            if level == frame.height {
                self.add_members(group - 1 - inner, (x, y), &mut blocks);
                continue;
            }
            let half = 1i64 << (frame.height - level - 1);
            let ones = self.tree.rank1(4 * group);
            let window = self.tree.list.words[(group / 16) as usize] >> (group % 16 * 4) & 15;
            for digit in (0..4).rev() {
                if window >> digit & 1 == 1 {
                    let before = (window & ((1 << digit) - 1)).count_ones();
                    let (dx, dy) = ((digit & 1) as i64 * half, (digit >> 1) as i64 * half);
                    stack.push((level + 1, ones + before + 1, x + dx, y + dy));
                }
            }
        }
        blocks
    }
}

#[derive(Clone, Copy)]
struct Entry {
    duration: u32,
    depth: u32,
    dx: i32,
    dy: i32,
    x1: i32,
    y1: i32,
    x2: i32,
    y2: i32,
}

fn isqrt(n: u64) -> u64 {
    let mut r = (n as f64).sqrt() as u64;
    while r * r > n {
        r -= 1;
    }
    while (r + 1) * (r + 1) <= n {
        r += 1;
    }
    r
}

fn movement(code: u64) -> (i64, i64) {
    if code == 0 {
        return (0, 0);
    }
    let r = (isqrt(code) + 1) / 2;
    let place = code - (2 * r - 1) * (2 * r - 1);
    let (edge, along) = (r as i64, (place % (2 * r)) as i64 + 1 - r as i64);
    match place / (2 * r) {
        0 => (edge, along),
        1 => (-along, edge),
        2 => (-edge, -along),
        _ => (along, -edge),
    }
}

fn terminal(value: u64) -> Entry {
    let (dx, dy) = movement(value.saturating_sub(1));
    let (x, y) = (dx as i32, dy as i32);
    let (x1, y1, x2, y2) = if value == 0 { (1, 0, 0, 0) } else { (x, y, x, y) };
    Entry {
        duration: 1,
        depth: 0,
        dx: x,
        dy: y,
        x1,
        y1,
        x2,
        y2,
    }
}

type Hull = (i64, i64, i64, i64);

fn hull(entry: &Entry, x: i64, y: i64) -> Option<Hull> {
    if entry.x2 < entry.x1 {
        return None;
    }
    let (x1, y1) = (x + i64::from(entry.x1), y + i64::from(entry.y1));
    Some((x1, y1, x + i64::from(entry.x2), y + i64::from(entry.y2)))
}

fn joined(a: &Entry, b: &Entry, frame: &Frame) -> Option<Entry> {
    let limit = (1i64 << frame.height) - 1;
    let (x, y) = (i64::from(a.dx), i64::from(a.dy));
    let both = match (hull(a, 0, 0), hull(b, x, y)) {
        (Some(p), Some(q)) => Some((p.0.min(q.0), p.1.min(q.1), p.2.max(q.2), p.3.max(q.3))),
        (one, other) => one.or(other),
    };
    let (dx, dy) = (x + i64::from(b.dx), y + i64::from(b.dy));
    let duration = a.duration + b.duration;
    let (x1, y1, x2, y2) = both.unwrap_or((1, 0, 0, 0));
    let far = [dx, dy, x1, y1, x2, y2].iter().any(|z| z.abs() > limit);
    if duration > frame.period - 1 || far {
        return None;
    }
    Some(Entry {
        duration,
        depth: 1 + a.depth.max(b.depth),
        dx: dx as i32,
        dy: dy as i32,
        x1: x1 as i32,
        y1: y1 as i32,
        x2: x2 as i32,
        y2: y2 as i32,
    })
}

fn entries(frame: &Frame, alphabet: &[u64], rules: &[(u32, u32)], symbols: &[u32]) -> Option<Vec<Entry>> {
    let side = 2 * ((1u64 << frame.height) - 1) + 1;
    if alphabet.iter().any(|value| *value > side * side) {
        return None;
    }
    let mut entries = Vec::with_capacity(alphabet.len() + rules.len());
    entries.extend(alphabet.iter().map(|value| terminal(*value)));
    for (left, right) in rules {
        let (a, b): (&Entry, &Entry) = (entries.get(*left as usize)?, entries.get(*right as usize)?);
        entries.push(joined(a, b, frame)?);
    }
    if symbols.iter().any(|symbol| *symbol as usize >= entries.len()) {
        return None;
    }
    Some(entries)
}

// The speed of a log that stays in the grid and lasts for so many instants.
fn speed_of(frame: &Frame, entries: &[Entry], log: &[u32], block: &Anchored, instants: u32) -> Option<u64> {
    let side = 1i64 << frame.height;
    let (mut x, mut y, mut duration, mut speed) = (block.x, block.y, 0, 0u64);
    for symbol in log {
        let entry = &entries[*symbol as usize];
        if let Some((x1, y1, x2, y2)) = hull(entry, x, y) {
            if x1 < frame.base.0 || x2 >= frame.base.0 + side || y1 < frame.base.1 || y2 >= frame.base.1 + side {
                return None;
            }
            let columns = x1.abs_diff(block.x).max(x2.abs_diff(block.x));
            let lines = y1.abs_diff(block.y).max(y2.abs_diff(block.y));
            speed = speed.max(columns.max(lines).div_ceil(duration + 1));
        }
        x += i64::from(entry.dx);
        y += i64::from(entry.dy);
        duration += u64::from(entry.duration);
    }
    (duration == u64::from(instants - 1 - block.offset)).then_some(speed)
}

struct Index {
    frame: Frame,
    objects: Vec<u32>,
    alphabet: Vec<u64>,
    rules: Vec<(u32, u32)>,
    entries: Vec<Entry>,
    depth: u32,
    snapshots: Vec<Snapshot>,
    speeds: Vec<u64>,
    symbols: Vec<u32>,
    // How many microseconds the logs took.
    join: u128,
}

fn check(parts: Parts) -> Option<Index> {
    let frame = parts.frame;
    let entries = entries(&frame, &parts.alphabet, &parts.rules, &parts.symbols)?;
    let depth = entries.iter().map(|entry| entry.depth).max().unwrap_or(0);
    let mut left = parts.symbols.len() as u32;
    for period in &parts.periods {
        for len in &period.lengths {
            left = left.checked_sub(*len)?;
        }
    }
    if left > 0 {
        return None;
    }
    let instants = |number: usize| frame.period.min(frame.span - number as u32 * frame.period);
    let mut snapshots = Vec::with_capacity(parts.periods.len());
    let mut start = 0;
    for (number, period) in parts.periods.into_iter().enumerate() {
        let symbols: u32 = period.lengths.iter().sum();
        snapshots.push(Snapshot::check(&frame, instants(number), start, period)?);
        start += symbols;
    }
    let start = Instant::now();
    let mut speeds = vec![0; snapshots.len()];
    for (number, snapshot) in snapshots.iter().enumerate() {
        for block in snapshot.blocks(&frame, parts.objects.len()).iter().flatten() {
            let log = &parts.symbols[block.from as usize..(block.from + block.len) as usize];
            let speed = speed_of(&frame, &entries, log, block, instants(number))?;
            speeds[number] = speed.max(speeds[number]);
        }
    }
    let join = start.elapsed().as_micros();
    Some(Index {
        frame,
        objects: parts.objects,
        alphabet: parts.alphabet,
        rules: parts.rules,
        entries,
        depth,
        snapshots,
        speeds,
        symbols: parts.symbols,
        join,
    })
}

// How long all lists of an index are, so that none is left out.
fn size(index: &Index) -> usize {
    let shortcuts = |s: &Snapshot| s.perm.groups.len() + s.perm.targets.len();
    let snapshots: usize = index.snapshots.iter().map(shortcuts).sum();
    let lists = index.objects.len() + index.alphabet.len() + index.rules.len() + index.entries.len() + index.speeds.len();
    snapshots + lists + index.symbols.len() + index.frame.height as usize
}

fn sum_of(bytes: &[u8]) -> u64 {
    bytes.iter().fold(0, |all: u64, byte| all.rotate_left(1) ^ u64::from(*byte))
}

fn main() {
    let mut bytes = Vec::new();
    std::io::stdin().read_to_end(&mut bytes).unwrap();
    println!("{} bytes", bytes.len());
    for _ in 0..5 {
        let bytes = black_box(&bytes);
        let start = Instant::now();
        let copied = black_box(bytes.to_vec());
        let took = start.elapsed().as_micros();
        println!("copy {} {took} us", sum_of(&copied));
        drop(copied);
        let start = Instant::now();
        let parts = black_box(decode(bytes).unwrap());
        let took = start.elapsed().as_micros();
        println!("decode {} {took} us", parts.symbols.len());
        let start = Instant::now();
        let written = black_box(encode(&parts));
        let took = start.elapsed().as_micros();
        println!("encode {} {took} us", sum_of(&written));
        assert!(written == *bytes);
        drop(written);
        let start = Instant::now();
        let index = black_box(check(parts).unwrap());
        let took = start.elapsed().as_micros();
        black_box(size(&index));
        println!("check {} {took} us, {} us of them for the logs", index.depth, index.join);
        drop(index);
        let start = Instant::now();
        let index = black_box(decode(bytes).and_then(check).unwrap());
        let took = start.elapsed().as_micros();
        println!("open {} {took} us", index.depth);
    }
}
