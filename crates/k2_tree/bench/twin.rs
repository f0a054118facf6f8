use std::time::Instant;

const CALLS: u32 = 1_000_000;

#[derive(Clone, Copy)]
struct Cell {
    x: i64,
    y: i64,
}

// Cells as their Morton numbers, ascending.
struct Sorted {
    codes: Vec<u64>,
}

fn next(state: u64) -> u64 {
    let a = state ^ (state << 13);
    let b = a ^ (a >> 7);
    b ^ (b << 17)
}

fn even_bits(code: u64) -> i64 {
    let mut bits = code & 0x55_5555_5555;
    bits = (bits | bits >> 1) & 0x33_3333_3333;
    bits = (bits | bits >> 2) & 0x0f_0f0f_0f0f;
    bits = (bits | bits >> 4) & 0xff_00ff_00ff;
    bits = (bits | bits >> 8) & 0xff_0000_ffff;
    ((bits | bits >> 16) % (1 << 20)) as i64
}

fn cell_at(code: u64) -> Cell {
    Cell {
        x: even_bits(code),
        y: even_bits(code >> 1),
    }
}

// The 20 bits of a number, moved to the even places.
fn spread(bits: u64) -> u64 {
    let mut code = bits;
    code = (code | code << 16) & 0xff_0000_ffff;
    code = (code | code << 8) & 0xff_00ff_00ff;
    code = (code | code << 4) & 0x0f_0f0f_0f0f;
    code = (code | code << 2) & 0x33_3333_3333;
    (code | code << 1) & 0x55_5555_5555
}

fn morton(cell: Cell) -> u64 {
    spread(cell.y as u64) << 1 | spread(cell.x as u64)
}

impl Sorted {
    fn build(cells: &[Cell]) -> Sorted {
        Sorted {
            codes: cells.iter().map(|cell| morton(*cell)).collect(),
        }
    }

    fn check(codes: Vec<u64>) -> Option<Sorted> {
        if codes.windows(2).all(|pair| pair[0] < pair[1])
            && codes.last().is_none_or(|code| code >> 40 == 0)
        {
            Some(Sorted { codes })
        } else {
            None
        }
    }

    fn leaf_of(&self, cell: Cell) -> Option<u32> {
        let side = 0..1 << 20;
        if !side.contains(&cell.x) || !side.contains(&cell.y) {
            return None;
        }
        self.codes
            .binary_search(&morton(cell))
            .ok()
            .map(|leaf| leaf as u32)
    }

    fn leaf_cell(&self, leaf: u32) -> Cell {
        cell_at(self.codes[leaf as usize])
    }
}

fn main() {
    let mut state = 88_172_645_463_325_252u64;
    let mut codes = Vec::new();
    for _ in 0..65_536 {
        state = next(state);
        codes.push(state >> 24);
    }
    codes.sort();
    codes.dedup();
    let cells: Vec<Cell> = codes.iter().map(|code| cell_at(*code)).collect();
    let mut state = 1u64;
    let mut queries = Vec::new();
    for _ in 0..CALLS {
        state = next(state);
        queries.push(if state >> 63 == 1 {
            cells[(state >> 24) as usize % cells.len()]
        } else {
            cell_at(state >> 16)
        });
    }
    let start = Instant::now();
    let list = Sorted::build(&cells);
    println!("build {} us", start.elapsed().as_micros());
    let codes = list.codes;
    let start = Instant::now();
    let list = Sorted::check(codes).unwrap();
    let took = start.elapsed().as_micros();
    println!("check {} bits {took} us", 64 * list.codes.len());
    let start = Instant::now();
    let mut all = 0u32;
    for cell in &queries {
        all = match list.leaf_of(*cell) {
            Some(leaf) => all.rotate_left(1) ^ leaf,
            None => !all,
        };
    }
    println!("leaf_of {all} {} us", start.elapsed().as_micros());
    let start = Instant::now();
    let (mut state, mut all) = (1u64, 0i64);
    for _ in 0..CALLS {
        state = next(state);
        let cell = list.leaf_cell((state >> 32) as u32 % list.codes.len() as u32);
        all = all.rotate_left(1) ^ cell.x ^ cell.y.rotate_left(20);
    }
    println!("leaf_cell {all} {} us", start.elapsed().as_micros());
    let start = Instant::now();
    let (mut count, mut all) = (0u32, 0i64);
    for i in 0..100 {
        let x1 = 9000 * i;
        for (leaf, code) in (0..).zip(&list.codes) {
            let cell = cell_at(*code);
            if x1 <= cell.x && cell.x <= x1 + 104_857 && 500_000 <= cell.y && cell.y <= 604_857 {
                all = all.rotate_left(1) ^ leaf ^ cell.x;
                count += 1;
            }
        }
    }
    println!("pruned {count} {all} {} us", start.elapsed().as_micros());
}
