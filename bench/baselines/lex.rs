// Counts the tokens of a JSON file by kind, in one loop over its bytes with one table of what each class of
// byte does in each state: `lex FILE ROUNDS`. A string or a run that spells nothing counts as broken where it
// ends, and nothing is read behind it.
use std::{env, fs};

const OUT: u8 = 0;
const INSIDE: u8 = 1;
const ESCAPED: u8 = 2;
const HEX: u8 = 3; // to 6: four digits wanted to one
const MINUS: u8 = 7;
const ZERO: u8 = 8;
const WHOLE: u8 = 9;
const POINT: u8 = 10;
const FRACTION: u8 = 11;
const LETTER: u8 = 12;
const SIGN: u8 = 13;
const POWER: u8 = 14;
const WORD: u8 = 15; // and on: the letters of the literals that have been read
const WORDS: [&[u8]; 3] = [b"null", b"true", b"false"];
const WORD_END: u8 = WORD + 10;
const BAD_TEXT: u8 = WORD_END + 1;
const BAD_ESCAPE: u8 = BAD_TEXT + 1;
const BAD_RUN: u8 = BAD_ESCAPE + 1;
const STATES: usize = BAD_RUN as usize + 1;

#[derive(Clone, Copy)]
struct Step {
    next: u8,
    // 0: nothing; 1: a mark; 2: a text ends; 3: a run ends; 4: a run ends in front of a mark; 5: broken
    event: u8,
}

fn is_space(b: u8) -> bool {
    matches!(b, b' ' | b'\t' | b'\n' | b'\r')
}

fn is_mark(b: u8) -> bool {
    matches!(b, b'{' | b'}' | b'[' | b']' | b',' | b':')
}

fn begin(b: u8) -> u8 {
    match b {
        b'-' => MINUS,
        b'0' => ZERO,
        b'1'..=b'9' => WHOLE,
        b'n' => WORD,
        b't' => WORD + 3,
        b'f' => WORD + 6,
        _ => BAD_RUN,
    }
}

// The state behind one byte more of a run, and whether the run may end in this state.
fn on(state: u8, b: u8) -> (Option<u8>, bool) {
    let digit = b.is_ascii_digit();
    let tail = |may_point: bool| match b {
        b'.' if may_point => Some(POINT),
        b'e' | b'E' => Some(LETTER),
        _ => None,
    };
    match state {
        MINUS => (if b == b'0' { Some(ZERO) } else if digit { Some(WHOLE) } else { None }, false),
        ZERO => (tail(true), true),
        WHOLE => (if digit { Some(WHOLE) } else { tail(true) }, true),
        POINT => (if digit { Some(FRACTION) } else { None }, false),
        FRACTION => (if digit { Some(FRACTION) } else { tail(false) }, true),
        LETTER => (if digit { Some(POWER) } else if b == b'+' || b == b'-' { Some(SIGN) } else { None }, false),
        SIGN => (if digit { Some(POWER) } else { None }, false),
        POWER => (if digit { Some(POWER) } else { None }, true),
        WORD_END => (None, true),
        BAD_RUN => (None, false),
        _ => {
            let (word, read) = match state - WORD {
                k @ 0..=2 => (WORDS[0], k + 1),
                k @ 3..=5 => (WORDS[1], k - 2),
                k => (WORDS[2], k - 5),
            };
            let next = if read as usize + 1 == word.len() { WORD_END } else { state + 1 };
            (if b == word[read as usize] { Some(next) } else { None }, false)
        }
    }
}

fn step(state: u8, b: u8) -> Step {
    let to = |next, event| Step { next, event };
    match state {
        OUT if is_space(b) => to(OUT, 0),
        OUT if is_mark(b) => to(OUT, 1),
        OUT if b == b'"' => to(INSIDE, 0),
        OUT => to(begin(b), 0),
        INSIDE => match b {
            b'"' => to(OUT, 2),
            b'\\' => to(ESCAPED, 0),
            0..=0x1F => to(BAD_TEXT, 0),
            _ => to(INSIDE, 0),
        },
        ESCAPED => match b {
            b'"' | b'\\' | b'/' | b'b' | b'f' | b'n' | b'r' | b't' => to(INSIDE, 0),
            b'u' => to(HEX, 0),
            _ => to(BAD_TEXT, 0),
        },
        3..=6 if b.is_ascii_hexdigit() => to(if state == 6 { INSIDE } else { state + 1 }, 0),
        3..=6 | BAD_TEXT => match b {
            b'"' => to(OUT, 5),
            b'\\' => to(BAD_ESCAPE, 0),
            _ => to(BAD_TEXT, 0),
        },
        BAD_ESCAPE => to(BAD_TEXT, 0),
        _ => {
            let (next, may_end) = on(state, b);
            if is_space(b) || is_mark(b) || b == b'"' {
                let next = if b == b'"' { INSIDE } else { OUT };
                to(next, if !may_end { 5 } else if is_mark(b) { 4 } else { 3 })
            } else {
                to(next.unwrap_or(BAD_RUN), 0)
            }
        }
    }
}

fn count(bytes: &[u8], table: &[[Step; 256]; STATES], counts: &mut [u64; 4]) {
    let mut state = OUT;
    for &b in bytes {
        let Step { next, event } = table[state as usize][b as usize];
        state = next;
        if event != 0 {
            match event {
                1 => counts[0] += 1,
                2 => counts[1] += 1,
                3 => counts[2] += 1,
                4 => {
                    counts[0] += 1;
                    counts[2] += 1;
                }
                _ => {
                    counts[3] += 1;
                    return;
                }
            }
        }
    }
}

fn main() {
    let words: Vec<String> = env::args().collect();
    let bytes = fs::read(&words[1]).unwrap();
    let rounds: u8 = words[2].parse().unwrap();
    let mut table = Box::new([[Step { next: 0, event: 0 }; 256]; STATES]);
    for state in 0..STATES {
        for b in 0..256 {
            table[state][b] = step(state as u8, b as u8);
        }
    }
    let mut counts = [0; 4];
    for _ in 0..rounds {
        count(&bytes, &table, &mut counts);
    }
    println!("{} {} {} {}", counts[0], counts[1], counts[2], counts[3]);
}
