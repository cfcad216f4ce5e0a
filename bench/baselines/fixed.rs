// Sums the numbers of a file, one JSON number a line, in units of 10^-7, rounded to the nearest even: a hand-written
// loop over the bytes, one pass, in 64-bit arithmetic.
mod numbers;

use std::env;
use std::fs;

const LARGEST: u64 = 300_000_000_000_000;

/// The value of the plain number that begins the text, 0 where it is too large, and where it ends.
fn read(text: &[u8]) -> (i64, usize) {
    let (size, minus, at) = numbers::read_number(text, 0);
    let size = if size > LARGEST { 0 } else { size as i64 };
    (if minus { -size } else { size }, at)
}

fn main() {
    let name = env::args().nth(1).expect("a file's name");
    let text = fs::read(name).expect("the file's bytes");
    let mut sum: i64 = 0;
    let mut at = 0;
    while at < text.len() {
        let (value, len) = read(&text[at..]);
        sum = sum.wrapping_add(value);
        at += len + 1;
    }
    println!("{sum}");
}
