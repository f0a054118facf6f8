// Seeks and walks over the grammar and the blocks that the program printed, in plain Rust.
use std::time::Instant;

fn next(state: u64) -> u64 {
    let a = state ^ (state << 13);
    let b = a ^ (a >> 7);
    b ^ (b << 17)
}

#[derive(Clone, Copy)]
struct Entry { duration: u32, dx: i32, dy: i32, present: bool }

#[derive(Default)]
struct Store { terminals: u32, rules: Vec<(u32, u32)>, entries: Vec<Entry> }

#[derive(Default)]
struct Tally { sum: i64, nanos: u128, count: u64 }

impl Tally {
    fn add(&mut self, x: i64, y: i64) {
        self.sum = self.sum.rotate_left(1) ^ x ^ y;
        self.count += 1;
    }
}

type Place = (i64, i64, i64);

fn seek(store: &Store, log: &[u32], start: Place, instant: i64) -> Option<(i64, i64)> {
    let (mut at, mut x, mut y) = start;
    if instant <= at { return if instant == at { Some((x, y)) } else { None } }
    for symbol in log {
        let mut s = *symbol;
        let mut e = store.entries[s as usize];
        if instant <= at + i64::from(e.duration) {
            while e.present {
                if s < store.terminals { return Some((x + i64::from(e.dx), y + i64::from(e.dy))) }
                let (l, r) = store.rules[(s - store.terminals) as usize];
                let a = store.entries[l as usize];
                if instant <= at + i64::from(a.duration) { s = l; e = a }
                else { at += i64::from(a.duration); x += i64::from(a.dx); y += i64::from(a.dy); s = r; e = store.entries[r as usize] }
            }
            return None
        }
        at += i64::from(e.duration); x += i64::from(e.dx); y += i64::from(e.dy);
    }
    None
}

struct Walk<'a> { store: &'a Store, log: &'a [u32], next: usize, stack: Vec<u32>, anchor: Option<Place>, at: Place, from: i64, to: i64 }

impl<'a> Walk<'a> {
    fn draw(&mut self) -> Option<Place> {
        if let Some(stop) = self.anchor.take() { return Some(stop) }
        while self.at.0 < self.to {
            let s = match self.stack.pop() { Some(s) => s, None => { let s = *self.log.get(self.next)?; self.next += 1; s } };
            let e = self.store.entries[s as usize];
            let to = (self.at.0 + i64::from(e.duration), self.at.1 + i64::from(e.dx), self.at.2 + i64::from(e.dy));
            if to.0 < self.from || !e.present { self.at = to; continue }
            if s >= self.store.terminals { let (l, r) = self.store.rules[(s - self.store.terminals) as usize]; self.stack.push(r); self.stack.push(l); continue }
            self.at = to;
            return Some(to)
        }
        None
    }
}

fn measure(store: &Store, period: u32, start: Place, log: &[u32], seeks: &mut Tally, stops: &mut Tally) {
    let begin = Instant::now();
    let mut state = 7u64;
    for _ in 0..1000 {
        state = next(state);
        match seek(store, log, start, start.0 + i64::from((state >> 32) as u32 % period)) {
            Some((x, y)) => seeks.add(x, y),
            None => seeks.add(0, 0),
        }
    }
    seeks.nanos += begin.elapsed().as_nanos();
    let begin = Instant::now();
    for _ in 0..10 {
        let mut walk = Walk { store, log, next: 0, stack: Vec::with_capacity(64), anchor: Some(start), at: start, from: start.0, to: 0x1ff_ffff_ffff };
        while let Some((_, x, y)) = walk.draw() { stops.add(x, y) }
    }
    stops.nanos += begin.elapsed().as_nanos();
}

fn print(period: u32, seeks: &mut Tally, stops: &mut Tally) {
    if period > 0 {
        println!("PERIOD {period}: seek {} calls {} ns {}", seeks.sum, seeks.count, seeks.nanos);
        println!("PERIOD {period}: walk {} stops {} ns {}", stops.sum, stops.count, stops.nanos);
    }
    (*seeks, *stops) = Default::default();
}

fn main() {
    let text = std::io::read_to_string(std::io::stdin()).unwrap();
    let (mut store, mut period) = (Store::default(), 0u32);
    let (mut seeks, mut stops) = (Tally::default(), Tally::default());
    for line in text.lines() {
        let (kind, rest) = line.split_at(1);
        let Ok(numbers) = rest.split_whitespace().map(str::parse).collect::<Result<Vec<i64>, _>>() else { continue };
        match kind {
            "p" => { print(period, &mut seeks, &mut stops); (store, period) = (Store::default(), numbers[0] as u32) }
            "t" => {
                store.terminals += 1;
                store.entries.push(Entry { duration: 1, dx: numbers[0] as i32, dy: numbers[1] as i32, present: numbers[2] == 1 });
            }
            "r" => {
                let (a, b) = (store.entries[numbers[0] as usize], store.entries[numbers[1] as usize]);
                store.rules.push((numbers[0] as u32, numbers[1] as u32));
                store.entries.push(Entry { duration: a.duration + b.duration, dx: a.dx + b.dx, dy: a.dy + b.dy, present: a.present || b.present });
            }
            "b" => {
                let log: Vec<u32> = numbers[3..].iter().map(|symbol| *symbol as u32).collect();
                measure(&store, period, (numbers[0], numbers[1], numbers[2]), &log, &mut seeks, &mut stops);
            }
            _ => {}
        }
    }
    print(period, &mut seeks, &mut stops);
}
