// An index file in plain Rust: its lists, and how its bytes are read and written.
struct BitList {
    words: Vec<u64>,
    len: u32,
}

impl BitList {
    fn ones(&self) -> u32 {
        self.words.iter().map(|word| word.count_ones()).sum()
    }
}

struct Period {
    present: BitList,
    offsets: Vec<u32>,
    tree: BitList,
    lasts: BitList,
    perm: Vec<u32>,
    lengths: Vec<u32>,
}

#[derive(Clone, Copy)]
struct Frame {
    first: i64,
    span: u32,
    period: u32,
    height: u32,
    base: (i64, i64),
    cell: u64,
    tick: u64,
}

struct Parts {
    frame: Frame,
    objects: Vec<u32>,
    alphabet: Vec<u64>,
    rules: Vec<(u32, u32)>,
    periods: Vec<Period>,
    symbols: Vec<u32>,
}

fn short(rest: &mut &[u8]) -> Option<u32> {
    let (front, after) = rest.split_at_checked(4)?;
    *rest = after;
    Some(u32::from_le_bytes([front[0], front[1], front[2], front[3]]))
}

fn long(rest: &mut &[u8]) -> Option<u64> {
    let (front, after) = rest.split_at_checked(8)?;
    *rest = after;
    Some(u64::from_le_bytes([
        front[0], front[1], front[2], front[3], front[4], front[5], front[6], front[7],
    ]))
}

fn shorts(rest: &mut &[u8], count: u32) -> Option<Vec<u32>> {
    let mut values = Vec::with_capacity((count as usize).min(rest.len() / 4));
    for _ in 0..count {
        values.push(short(rest)?);
    }
    Some(values)
}

fn objects(rest: &mut &[u8], count: u32) -> Option<Vec<u32>> {
    let mut values: Vec<u32> = Vec::with_capacity((count as usize).min(rest.len() / 4));
    for _ in 0..count {
        let value = short(rest)?;
        if values.last().is_some_and(|last| value <= *last) {
            return None;
        }
        values.push(value);
    }
    Some(values)
}

fn alphabet(rest: &mut &[u8], count: u32) -> Option<Vec<u64>> {
    let mut values: Vec<u64> = Vec::with_capacity((count as usize).min(rest.len() / 8));
    for _ in 0..count {
        let value = long(rest)?;
        if values.last().is_some_and(|last| value <= *last) {
            return None;
        }
        values.push(value);
    }
    Some(values)
}

fn rules(rest: &mut &[u8], count: u32) -> Option<Vec<(u32, u32)>> {
    let mut rules = Vec::with_capacity((count as usize).min(rest.len() / 8));
    for _ in 0..count {
        rules.push((short(rest)?, short(rest)?));
    }
    Some(rules)
}

fn bits(rest: &mut &[u8], len: u32) -> Option<BitList> {
    let (mut front, after) = rest.split_at_checked(len.div_ceil(8) as usize)?;
    *rest = after;
    if len % 8 > 0 && front[front.len() - 1] >> (len % 8) > 0 {
        return None;
    }
    let mut words = Vec::with_capacity(front.len().div_ceil(8));
    while front.len() >= 8 {
        words.push(long(&mut front)?);
    }
    if !front.is_empty() {
        words.push((0..front.len()).map(|i| u64::from(front[i]) << (8 * i)).sum());
    }
    Some(BitList { words, len })
}

fn period_of(rest: &mut &[u8], objects: u32) -> Option<Period> {
    let present = bits(rest, objects)?;
    let count = present.ones();
    let offsets = shorts(rest, count)?;
    let len = short(rest)?;
    if len > 1 << 31 {
        return None;
    }
    Some(Period {
        present,
        offsets,
        tree: bits(rest, len)?,
        lasts: bits(rest, count)?,
        perm: shorts(rest, count)?,
        lengths: shorts(rest, count)?,
    })
}

fn decode(bytes: &[u8]) -> Option<Parts> {
    let mut rest = bytes.strip_prefix(b"GRACT001")?;
    let rest = &mut rest;
    let mut sizes = [0u32; 7];
    for size in &mut sizes {
        *size = short(rest)?;
    }
    let [period, height, many, span, values, pairs, len] = sizes;
    let frame = Frame {
        first: long(rest)? as i64,
        span,
        period,
        height,
        base: (long(rest)? as i64, long(rest)? as i64),
        cell: long(rest)?,
        tick: long(rest)?,
    };
    let objects = objects(rest, many)?;
    let alphabet = alphabet(rest, values)?;
    let rules = rules(rest, pairs)?;
    let count = span.div_ceil(period);
    let mut periods = Vec::with_capacity((count as usize).min(rest.len() / 5));
    for _ in 0..count {
        periods.push(period_of(rest, many)?);
    }
    let symbols = shorts(rest, len)?;
    if !rest.is_empty() {
        return None;
    }
    Some(Parts {
        frame,
        objects,
        alphabet,
        rules,
        periods,
        symbols,
    })
}

fn put_shorts(out: &mut Vec<u8>, numbers: &[u32]) {
    for number in numbers {
        out.extend_from_slice(&number.to_le_bytes());
    }
}

fn put_longs(out: &mut Vec<u8>, numbers: &[u64]) {
    for number in numbers {
        out.extend_from_slice(&number.to_le_bytes());
    }
}

fn put_bits(out: &mut Vec<u8>, bits: &BitList) {
    let len = bits.len.div_ceil(8) as usize;
    for (i, word) in bits.words.iter().enumerate() {
        out.extend_from_slice(&word.to_le_bytes()[..(len - 8 * i).min(8)]);
    }
}

fn bits_len(bits: &BitList) -> usize {
    bits.len.div_ceil(8) as usize
}

fn period_len(period: &Period) -> usize {
    let bits = bits_len(&period.present) + bits_len(&period.tree) + bits_len(&period.lasts);
    bits + 4 * (period.offsets.len() + 1 + period.perm.len() + period.lengths.len())
}

fn encode(parts: &Parts) -> Vec<u8> {
    let periods: usize = parts.periods.iter().map(period_len).sum();
    let lists = 4 * (parts.objects.len() + parts.symbols.len()) + 8 * (parts.alphabet.len() + parts.rules.len());
    let mut out = Vec::with_capacity(76 + lists + periods);
    let frame = &parts.frame;
    out.extend_from_slice(b"GRACT001");
    put_shorts(
        &mut out,
        &[
            frame.period,
            frame.height,
            parts.objects.len() as u32,
            frame.span,
            parts.alphabet.len() as u32,
            parts.rules.len() as u32,
            parts.symbols.len() as u32,
        ],
    );
    put_longs(
        &mut out,
        &[
            frame.first as u64,
            frame.base.0 as u64,
            frame.base.1 as u64,
            frame.cell,
            frame.tick,
        ],
    );
    put_shorts(&mut out, &parts.objects);
    put_longs(&mut out, &parts.alphabet);
    for (left, right) in &parts.rules {
        put_shorts(&mut out, &[*left, *right]);
    }
    for period in &parts.periods {
        put_bits(&mut out, &period.present);
        put_shorts(&mut out, &period.offsets);
        put_shorts(&mut out, &[period.tree.len]);
        put_bits(&mut out, &period.tree);
        put_bits(&mut out, &period.lasts);
        put_shorts(&mut out, &period.perm);
        put_shorts(&mut out, &period.lengths);
    }
    put_shorts(&mut out, &parts.symbols);
    out
}
