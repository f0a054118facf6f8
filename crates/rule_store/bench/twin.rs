use std::time::Instant;
fn next(state: u64) -> u64 { let a = state ^ (state << 13); let b = a ^ (a >> 7); b ^ (b << 17) }
#[derive(Clone, Copy)]
struct Packed { duration: u32, depth: u32, dx: i32, dy: i32, x1: i32, y1: i32, x2: i32, y2: i32 }
fn isqrt(n: u64) -> u64 { let mut r = (n as f64).sqrt() as u64; while r * r > n { r -= 1 } while (r + 1) * (r + 1) <= n { r += 1 } r }
fn decode(code: u64) -> (i64, i64) {
    if code == 0 { return (0, 0) }
    let r = (isqrt(code) + 1) / 2; let place = code - (2 * r - 1) * (2 * r - 1);
    let (edge, along) = (r as i64, (place % (2 * r)) as i64 + 1 - r as i64);
    match place / (2 * r) { 0 => (edge, along), 1 => (-along, edge), 2 => (-edge, -along), _ => (along, -edge) }
}
fn check(alphabet: &[u64], rules: &[(u32, u32)], symbols: &[u32], height: u32, period: u32) -> Result<(Vec<Packed>, u32), u32> {
    let limit = (1i64 << height) - 1; let side = 2 * limit as u64 + 1;
    if let Some(i) = alphabet.iter().position(|v| *v > side * side) { return Err(i as u32) }
    let mut entries: Vec<Packed> = Vec::with_capacity(alphabet.len() + rules.len());
    for v in alphabet {
        entries.push(if *v == 0 { Packed { duration: 1, depth: 0, dx: 0, dy: 0, x1: 1, y1: 0, x2: 0, y2: 0 } }
            else { let (dx, dy) = decode(v - 1); let (x, y) = (dx as i32, dy as i32);
                Packed { duration: 1, depth: 0, dx: x, dy: y, x1: x, y1: y, x2: x, y2: y } });
    }
    for (j, (l, r)) in rules.iter().enumerate() {
        let (l, r) = (*l as usize, *r as usize);
        if l >= entries.len() || r >= entries.len() { return Err(j as u32) }
        let (a, b) = (entries[l], entries[r]);
        let (x, y) = (a.dx as i64, a.dy as i64);
        let ha = if a.x2 < a.x1 { None } else { Some((a.x1 as i64, a.y1 as i64, a.x2 as i64, a.y2 as i64)) };
        let hb = if b.x2 < b.x1 { None } else { Some((b.x1 as i64 + x, b.y1 as i64 + y, b.x2 as i64 + x, b.y2 as i64 + y)) };
        let h = match (ha, hb) { (Some(p), Some(q)) => Some((p.0.min(q.0), p.1.min(q.1), p.2.max(q.2), p.3.max(q.3))), (Some(_), None) => ha, _ => hb };
        let (dx, dy) = (x + b.dx as i64, y + b.dy as i64); let duration = a.duration + b.duration;
        if duration > period - 1 || dx.abs().max(dy.abs()) > limit { return Err(j as u32) }
        let (x1, y1, x2, y2) = match h { Some(p) => { if p.0.abs().max(p.1.abs()) > limit || p.2.abs().max(p.3.abs()) > limit { return Err(j as u32) } p } None => (1, 0, 0, 0) };
        entries.push(Packed { duration, depth: 1 + a.depth.max(b.depth), dx: dx as i32, dy: dy as i32, x1: x1 as i32, y1: y1 as i32, x2: x2 as i32, y2: y2 as i32 });
    }
    let known = entries.len();
    if let Some(i) = symbols.iter().position(|s| *s as usize >= known) { return Err(i as u32) }
    let depth = entries.iter().map(|e| e.depth).max().unwrap_or(0);
    Ok((entries, depth))
}
fn main() {
    let alphabet: Vec<u64> = (1..26).collect();
    let mut rules = Vec::with_capacity(1 << 20); let mut s = 88_172_645_463_325_252u64;
    for rule in 0..1_048_576u32 { s = next(s); let l = (s >> 32) as u32 % (25 + rule); s = next(s); let r = (s >> 32) as u32 % (25 + rule.min(1000)); rules.push((l, r)); }
    let mut symbols = Vec::with_capacity(1 << 22); let mut s = 1u64;
    for _ in 0..4_194_304 { s = next(s); symbols.push((s >> 32) as u32 % 1_048_601); }
    let t = Instant::now();
    let (entries, depth) = check(&alphabet, &rules, &symbols, 20, 4_194_304).unwrap();
    println!("check {} us, depth {}", t.elapsed().as_micros(), depth);
    let t = Instant::now(); let mut all = 0i64;
    for e in &entries { all = all.rotate_left(1) ^ e.duration as i64 ^ e.dx as i64; if e.x2 >= e.x1 { all ^= e.x1 as i64 ^ (e.y2 as i64).rotate_left(20); } }
    println!("entry {} {} us", all, t.elapsed().as_micros());
}
