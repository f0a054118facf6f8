use std::cmp::Ordering;
use std::collections::{BTreeSet, HashMap};
use std::time::Instant;
type Pair = (u32, u32);
#[derive(Clone, Copy, PartialEq, Eq)]
struct Key { count: u32, pair: Pair }
impl Ord for Key { fn cmp(&self, other: &Key) -> Ordering { other.count.cmp(&self.count).then(self.pair.cmp(&other.pair)) } }
impl PartialOrd for Key { fn partial_cmp(&self, other: &Key) -> Option<Ordering> { Some(self.cmp(other)) } }
#[derive(Default)]
struct Tally { counts: HashMap<Pair, u32>, homes: HashMap<Pair, Vec<usize>>, keys: BTreeSet<Key> }
impl Tally {
    fn count(&self, pair: Pair) -> u32 { self.counts.get(&pair).copied().unwrap_or(0) }
    fn lower(&mut self, pair: Pair) { let count = self.count(pair); self.counts.insert(pair, count - 1); }
    fn raise(&mut self, pair: Pair, block: usize) {
        let count = self.count(pair) + 1;
        self.counts.insert(pair, count);
        if count > 1 { self.keys.insert(Key { count, pair }); }
        let list = self.homes.entry(pair).or_default();
        if list.last() != Some(&block) { list.push(block) }
    }
    fn first_pair(&mut self) -> Option<Pair> {
        while let Some(key) = self.keys.pop_first() {
            let count = self.count(key.pair);
            if count > key.count { continue }
            if count > 1 { self.keys.insert(Key { count, pair: key.pair }); }
            if count == key.count && count > 1 { return Some(key.pair) }
        }
        None
    }
}
#[derive(Default)]
struct Walk { left: Option<u32>, taken: bool }
impl Walk {
    fn step(&mut self, right: u32) -> Option<Pair> {
        let left = self.left.replace(right)?;
        if self.taken && left == right { self.taken = false; return None }
        self.taken = left == right;
        Some((left, right))
    }
}
fn find(block: &[u32], pair: Pair, symbol: u32, gone: &mut Vec<Pair>, come: &mut Vec<Pair>) {
    gone.clear(); come.clear();
    let (mut through, mut along, mut place) = (Walk::default(), Walk::default(), 0);
    while place < block.len() {
        if block[place..].starts_with(&[pair.0, pair.1]) {
            gone.extend(through.step(pair.0)); gone.extend(through.step(pair.1)); come.extend(along.step(symbol));
            place += 2;
        } else {
            let (before, after) = (through.step(block[place]), along.step(block[place]));
            if before != after { gone.extend(before); come.extend(after) }
            place += 1;
        }
    }
}
fn replace(block: &mut Vec<u32>, pair: Pair, symbol: u32) {
    let (mut read, mut written) = (0, 0);
    while read < block.len() {
        if block[read..].starts_with(&[pair.0, pair.1]) { block[written] = symbol; read += 2 } else { block[written] = block[read]; read += 1 }
        written += 1;
    }
    block.truncate(written);
}
fn compress(alphabet: u32, blocks: &[Vec<u32>]) -> (Vec<Pair>, Vec<Vec<u32>>) {
    let (mut blocks, mut rules, mut tally) = (blocks.to_vec(), Vec::new(), Tally::default());
    let (mut gone, mut come, mut places) = (Vec::new(), Vec::new(), Vec::new());
    for (place, block) in blocks.iter().enumerate() {
        let mut walk = Walk::default();
        for symbol in block { if let Some(pair) = walk.step(*symbol) { tally.raise(pair, place) } }
    }
    while let Some(pair) = tally.first_pair() {
        let symbol = alphabet + rules.len() as u32;
        rules.push(pair);
        places.clear(); places.extend_from_slice(&tally.homes[&pair]);
        for &place in &places {
            find(&blocks[place], pair, symbol, &mut gone, &mut come);
            replace(&mut blocks[place], pair, symbol);
            for &pair in &gone { tally.lower(pair) }
            for &pair in &come { tally.raise(pair, place) }
        }
    }
    (rules, blocks)
}
fn next(state: u64) -> u64 { let a = state ^ (state << 13); let b = a ^ (a >> 7); b ^ (b << 17) }
#[derive(Clone, Copy)]
struct Row { object: u32, instant: i64, x: i64, y: i64 }
fn spiral_code(dx: i64, dy: i64) -> u64 {
    if dx == 0 && dy == 0 { return 0 }
    let r = dx.unsigned_abs().max(dy.unsigned_abs()); let e = r as i64;
    let (side, along) = if dx == e && dy > -e { (0, dy) } else if dy == e { (1, -dx) } else if dx == -e { (2, -dy) } else { (3, dx) };
    (2 * r - 1) * (2 * r - 1) + side * 2 * r + (along + e - 1) as u64
}
fn rows(text: &str) -> Vec<Row> {
    let mut rows: Vec<Row> = text.lines().filter_map(|line| {
        let mut words = line.split(',').map(|word| word.parse::<i64>());
        let (object, t, x, y) = (words.next()?.ok()?, words.next()?.ok()?, words.next()?.ok()?, words.next()?.ok()?);
        Some(Row { object: object as u32, instant: t.div_euclid(60), x: x.div_euclid(100), y: y.div_euclid(100) })
    }).collect();
    rows.reverse();
    rows.sort_by_key(|r| (r.object, r.instant));
    rows.dedup_by_key(|r| (r.object, r.instant));
    rows
}
// The logs of all blocks in periods of 120 instants, by period, then object, and the size of their alphabet.
fn logs(rows: &[Row]) -> (u32, Vec<Vec<u32>>) {
    let first = rows.iter().map(|r| r.instant).min().unwrap(); let last = rows.iter().map(|r| r.instant).max().unwrap();
    let period = |row: &Row| (row.instant - first) / 120;
    let mut blocks: Vec<(i64, Vec<u64>)> = rows.chunk_by(|a, b| a.object == b.object && period(a) == period(b)).map(|block| {
        let end = (first + 120 * (period(&block[0]) + 1)).min(last + 1);
        let mut log = vec![0; (end - block[0].instant - 1) as usize];
        for pair in block.windows(2) {
            log[(pair[1].instant - block[0].instant - 1) as usize] = spiral_code(pair[1].x - pair[0].x, pair[1].y - pair[0].y) + 1
        }
        (period(&block[0]), log)
    }).collect();
    blocks.sort_by_key(|block| block.0);
    let mut alphabet: Vec<u64> = blocks.iter().flat_map(|block| block.1.iter().copied()).collect();
    alphabet.sort_unstable(); alphabet.dedup();
    let place = |value: &u64| alphabet.binary_search(value).unwrap() as u32;
    (alphabet.len() as u32, blocks.iter().map(|block| block.1.iter().map(place).collect()).collect())
}
fn fleet(many: u32) -> Vec<Vec<u32>> {
    let mut state = 88_172_645_463_325_252u64;
    (0..many).map(|_| {
        state = next(state); let mut way = state % 200;
        (0..119).map(|_| {
            state = next(state);
            if (state >> 20) % 16 == 0 { way = (state >> 30) % 200 }
            let noise = (state >> 40) % 8;
            (if noise < 5 { way } else { (way + noise) % 200 }) as u32
        }).collect()
    }).collect()
}
fn measure(alphabet: u32, lists: &[Vec<u32>]) {
    let start = Instant::now();
    let (rules, blocks) = compress(alphabet, lists);
    let took = start.elapsed().as_millis();
    let mut all = 0u64;
    for (left, right) in &rules { all = all.rotate_left(1) ^ *left as u64 ^ (*right as u64).rotate_left(32) }
    for block in &blocks { for symbol in block { all = all.rotate_left(1) ^ *symbol as u64 } }
    println!("{} blocks, {} rules, sum {all}: {took} ms", lists.len(), rules.len());
}
fn main() {
    let text = std::io::read_to_string(std::io::stdin()).unwrap();
    if text.is_empty() {
        for many in [2_100, 8_400] { measure(200, &fleet(many)) }
        return
    }
    let (alphabet, lists) = logs(&rows(&text));
    measure(alphabet, &lists)
}
