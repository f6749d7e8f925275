//! Nanoseconds per field: the reference's `BitReader` and `sum_fields` over one buffer.

use std::hint::black_box;

use reference::mesh::BitReader;

use crate::random::Random;
use crate::timing::medians;

const BYTES: usize = 1 << 20;
const WIDTHS: [u32; 4] = [3, 12, 16, 32];
const RUNS: usize = 25;

pub fn table() -> Result<(), String> {
    let data = random_bytes();
    println!("{BYTES} random bytes, medians of {RUNS} runs, ratio = ours / rust");
    println!(
        "{:>5} {:>8} {:>8} {:>6}",
        "width", "rust_ns", "ours_ns", "ratio"
    );
    for width in WIDTHS {
        let count = 8 * BYTES as u64 / u64::from(width);
        if rust(&data, width, count) != ours(&data, width, count) {
            return Err(format!("the sums differ at width {width}"));
        }
        let (rust, ours) = medians(
            RUNS,
            &data[..],
            |data| rust(data, black_box(width), black_box(count)),
            |data| ours(data, black_box(width), black_box(count)),
        );
        let fields = count as f64;
        let (rust, ours) = (rust / fields, ours / fields);
        println!("{width:>5} {rust:>8.3} {ours:>8.3} {:>6.3}", ours / rust);
    }
    Ok(())
}

fn random_bytes() -> Vec<u8> {
    let mut random = Random::new();
    let mut bytes = Vec::with_capacity(BYTES);
    while bytes.len() < BYTES {
        bytes.extend(random.draw().to_le_bytes());
    }
    bytes
}

fn rust(data: &[u8], width: u32, count: u64) -> Option<u64> {
    let mut reader = BitReader::new(data, 0);
    let mut sum = 0u64;
    for _ in 0..count {
        sum = sum.wrapping_add(u64::from(reader.read(width)?));
    }
    Some(sum)
}

fn ours(data: &[u8], width: u32, count: u64) -> Option<u64> {
    let mut words = [0];
    (hoodsorrel::raw::sum_fields(data, width, count, &mut words) == 1).then_some(words[0])
}
