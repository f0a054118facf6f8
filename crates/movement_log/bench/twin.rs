use std::time::Instant;
#[derive(Clone, Copy)]
struct Row { object: u32, instant: i64, x: i64, y: i64 }
#[derive(Clone, Copy)]
struct Head { period: u32, index: u32, offset: u32, _cell: (i64, i64) }
fn encode(dx: i64, dy: i64) -> u64 {
    if dx == 0 && dy == 0 { return 0 }
    let r = dx.unsigned_abs().max(dy.unsigned_abs()); let e = r as i64;
    let (side, along) = if dx == e && dy > -e { (0, dy) } else if dy == e { (1, -dx) } else if dx == -e { (2, -dy) } else { (3, dx) };
    (2 * r - 1) * (2 * r - 1) + side * 2 * r + (along + e - 1) as u64
}
fn cut(rows: &[Row], first: i64, last: i64, period: u32) -> (Vec<u64>, Vec<Head>, Vec<Vec<u32>>) {
    let (span, p) = (last.abs_diff(first) + 1, period as u64);
    let mut blocks: Vec<(Head, usize)> = Vec::new(); let mut index = 0;
    for at in 0..rows.len() {
        let row = &rows[at];
        if at > 0 && rows[at - 1].object != row.object { index += 1 }
        if at == 0 || rows[at - 1].object != row.object || rows[at - 1].instant.abs_diff(first) / p != row.instant.abs_diff(first) / p {
            let elapsed = row.instant.abs_diff(first);
            blocks.push((Head { period: (elapsed / p) as u32, index, offset: (elapsed % p) as u32, _cell: (row.x, row.y) }, at));
        }
    }
    blocks.sort_by_key(|b| b.0.period);
    let logs: Vec<Vec<u64>> = blocks.iter().map(|b| {
        let anchor = &rows[b.1]; let elapsed = anchor.instant.abs_diff(first);
        let len = (((elapsed / p + 1) * p).min(span) - (elapsed + 1)) as usize;
        let mut log = Vec::with_capacity(len); let mut at = b.1;
        while at + 1 < rows.len() && rows[at + 1].object == anchor.object && rows[at + 1].instant.abs_diff(anchor.instant) <= len as u64 {
            let row = &rows[at + 1];
            log.resize(row.instant.abs_diff(anchor.instant) as usize - 1, 0);
            log.push(encode(row.x - rows[at].x, row.y - rows[at].y) + 1);
            at += 1;
        }
        log.resize(len, 0); log
    }).collect();
    let mut alphabet: Vec<u64> = logs.concat(); alphabet.sort_unstable(); alphabet.dedup();
    let terminals = logs.iter().map(|log| log.iter().map(|v| alphabet.binary_search(v).unwrap() as u32).collect()).collect();
    (alphabet, blocks.iter().map(|b| b.0).collect(), terminals)
}
fn main() {
    let text = std::io::read_to_string(std::io::stdin()).unwrap();
    let mut raws: Vec<(u32, i64, i64, i64)> = text.lines().filter_map(|line| {
        let mut words = line.split(',').map(|word| word.parse::<i64>());
        let (o, t, x, y) = (words.next()?.ok()?, words.next()?.ok()?, words.next()?.ok()?, words.next()?.ok()?);
        Some((o as u32, t.div_euclid(60), x.div_euclid(100), y.div_euclid(100)))
    }).collect();
    raws.reverse();
    raws.sort_by_key(|r| (r.0, r.1));
    raws.dedup_by_key(|r| (r.0, r.1));
    let rows: Vec<Row> = raws.iter().map(|r| Row { object: r.0, instant: r.1, x: r.2, y: r.3 }).collect();
    let first = rows.iter().map(|r| r.instant).min().unwrap(); let last = rows.iter().map(|r| r.instant).max().unwrap();
    let start = Instant::now();
    let (alphabet, heads, terminals) = cut(&rows, first, last, 120);
    let took = start.elapsed().as_micros();
    let mut all = 0u64;
    for v in &alphabet { all = all.rotate_left(1) ^ v }
    for h in &heads { all = all.rotate_left(1) ^ h.index as u64 ^ h.offset as u64 }
    for log in &terminals { for t in log { all = all.rotate_left(1) ^ *t as u64 } }
    println!("{} rows, sum {all}: {took} us", rows.len());
}
