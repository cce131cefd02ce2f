//! The same calls in plain Rust, byte by byte, for comparison: once with a table of 256 products for each weight, made
//! before the clock starts, and once with a table of all 65,536 products. The weights are made before the clock starts too.
use std::hint::black_box;
use std::time::Instant;

const BLOCK: usize = 4096;

type Row = [u8; 256];

fn mul(a: u8, b: u8) -> u8 {
    let (mut product, mut power) = (0, b);
    for i in 0..8 {
        if a >> i & 1 == 1 {
            product ^= power;
        }
        power = power << 1 ^ if power < 0x80 { 0 } else { 0x1D };
    }
    product
}

fn inverse(a: u8) -> u8 {
    (1..=255).find(|b| mul(a, *b) == 1).unwrap()
}

fn row(c: u8) -> Row {
    std::array::from_fn(|x| mul(c, x as u8))
}

fn weight_among(points: &[u8], j: usize, x: u8) -> u8 {
    let (mut numerator, mut denominator) = (1, 1);
    for (i, point) in points.iter().enumerate() {
        if i != j {
            numerator = mul(numerator, x ^ point);
            denominator = mul(denominator, points[j] ^ point);
        }
    }
    mul(numerator, inverse(denominator))
}

// The block at a point: a copy of one that is there, or a sum of products.
enum Want {
    Copy(usize),
    Sum(Vec<u8>),
}

fn want(points: &[u8], x: u8) -> Want {
    match points.iter().position(|point| *point == x) {
        Some(i) => Want::Copy(i),
        None => Want::Sum((0..points.len()).map(|j| weight_among(points, j, x)).collect()),
    }
}

#[inline(never)]
fn mul_add(dst: &mut [u8], src: &[u8], products: &Row) {
    for (d, s) in dst.iter_mut().zip(src) {
        *d ^= products[*s as usize];
    }
}

// One table a weight, of those that were made before.
fn by_rows(rows: &[Row], blocks: &[u8], into: &mut [u8]) {
    into.fill(0);
    for (block, row) in blocks.chunks_exact(BLOCK).zip(rows) {
        mul_add(into, block, row);
    }
}

// The table of all products.
#[inline(never)]
fn by_full_table(full: &[Row], weights: &[u8], blocks: &[u8], into: &mut [u8]) {
    into.fill(0);
    for (block, weight) in blocks.chunks_exact(BLOCK).zip(weights) {
        for (d, s) in into.iter_mut().zip(block) {
            *d ^= full[*weight as usize][*s as usize];
        }
    }
}

fn report(call: &str, start: Instant, bytes: usize, sum: u8) {
    let rate = bytes as u128 * 1_000_000_000 / start.elapsed().as_nanos().max(1);
    println!("{call}: {rate} bytes a second (sum {sum})");
}

fn run(call: &str, full: &[Row], points: &[u8], wanted: std::ops::Range<u8>, data: &[u8], rounds: usize) {
    let size = points.len() * BLOCK;
    let wants: Vec<Want> = wanted.map(|x| want(points, x)).collect();
    let rows: Vec<Vec<Row>> = wants
        .iter()
        .map(|want| match want {
            Want::Copy(_) => Vec::new(),
            Want::Sum(weights) => weights.iter().map(|weight| row(*weight)).collect(),
        })
        .collect();
    let mut block = [0; BLOCK];
    for with_rows in [true, false] {
        let mut sum = 0u8;
        let start = Instant::now();
        for _ in 0..rounds {
            for stripe in data.chunks_exact(size) {
                for (want, rows) in wants.iter().zip(&rows) {
                    let stripe = black_box(stripe);
                    match want {
                        Want::Copy(i) => block.copy_from_slice(&stripe[i * BLOCK..(i + 1) * BLOCK]),
                        Want::Sum(_) if with_rows => by_rows(rows, stripe, &mut block),
                        Want::Sum(weights) => by_full_table(full, weights, stripe, &mut block),
                    }
                    sum = sum.wrapping_add(black_box(&block)[0]);
                }
            }
        }
        let table = if with_rows { "a table a weight" } else { "the full table" };
        report(&format!("{call}, {table}"), start, rounds * data.len(), sum);
    }
}

fn measure_code(full: &[Row], m: u8, n: u8, stripes: usize, rounds: usize) {
    println!("({m}, {n}), {stripes} stripes");
    let points: Vec<u8> = (0..n).collect();
    let data: Vec<u8> = (0..stripes * m as usize * BLOCK).map(|i| (i % 251) as u8).collect();
    run("encode", full, &points[..m as usize], m..n, &data, rounds);
    run("decode", full, &points[(n - m) as usize..], 0..m, &data, rounds);
}

fn main() {
    let full: Vec<Row> = (0..=255).map(row).collect();
    let src = [0xA7; BLOCK];
    let mut dst = [0x5C; BLOCK];
    let start = Instant::now();
    for _ in 0..50 {
        for row in &full {
            mul_add(&mut dst, black_box(&src), row);
        }
    }
    report("mul_add", start, 50 * 256 * BLOCK, dst[0]);
    measure_code(&full, 4, 6, 16, 257);
    measure_code(&full, 4, 6, 16384, 1);
    measure_code(&full, 10, 14, 6, 257);
    measure_code(&full, 10, 14, 6553, 1);
}
