// Reads and writes the bytes of an index file in plain Rust, by the same passes over the same lists.
use std::hint::black_box;
use std::io::Read;
use std::time::Instant;

include!("file.rs");

fn sum_of(bytes: &[u8]) -> u64 {
    bytes.iter().fold(0, |all: u64, byte| all.rotate_left(1) ^ u64::from(*byte))
}

fn main() {
    let mut bytes = Vec::new();
    std::io::stdin().read_to_end(&mut bytes).unwrap();
    println!("{} bytes", bytes.len());
    for _ in 0..20 {
        let bytes = black_box(&bytes);
        let start = Instant::now();
        let copied = black_box(bytes.to_vec());
        let took = start.elapsed().as_micros();
        println!("copy {} {took} us", sum_of(&copied));
        drop(copied);
        let start = Instant::now();
        let parts = black_box(decode(bytes).unwrap());
        let took = start.elapsed().as_micros();
        println!("decode {} {took} us", parts.symbols.len());
        let start = Instant::now();
        let written = black_box(encode(&parts));
        let took = start.elapsed().as_micros();
        println!("encode {} {took} us", sum_of(&written));
        assert!(written == *bytes);
        drop(written);
    }
}
