// What the baselines read numbers by: a plain loop over the bytes, in 64-bit arithmetic.
const POWERS: [u64; 20] = {
    let mut powers = [1u64; 20];
    let mut i = 1;
    while i < 20 {
        powers[i] = powers[i - 1] * 10;
        i += 1;
    }
    powers
};

/// The plain number that stands at a place: its size in units of 10^-7, rounded to the nearest even, whether it has a
/// minus, and the place behind it. It has at most 18 digits.
#[inline(always)]
pub fn read_number(text: &[u8], from: usize) -> (u64, bool, usize) {
    let mut at = from;
    let minus = at < text.len() && text[at] == b'-';
    if minus {
        at += 1;
    }
    let mut kept: u64 = 0;
    while at < text.len() && text[at].is_ascii_digit() {
        kept = kept.wrapping_mul(10).wrapping_add((text[at] - b'0') as u64);
        at += 1;
    }
    let mut fraction = 0;
    if at < text.len() && text[at] == b'.' {
        at += 1;
        let begin = at;
        while at < text.len() && text[at].is_ascii_digit() {
            kept = kept.wrapping_mul(10).wrapping_add((text[at] - b'0') as u64);
            at += 1;
        }
        fraction = at - begin;
    }
    let size = if fraction <= 7 {
        kept.wrapping_mul(POWERS[7 - fraction])
    } else {
        let power = POWERS[fraction - 7];
        let whole = kept / power;
        let rest = kept % power;
        let half = power / 2;
        whole + (rest > half || (rest == half && whole % 2 == 1)) as u64
    };
    (size, minus, at)
}
