//! A crew of the same steps in plain Rust: one word that counts the claims, a word of two bits for each inner node, a slot for
//! each block. Every atomic step is sequentially consistent. Its arguments are those of crates/bench_crew, and may be followed
//! by `apart`, which gives the claim word a cache line of its own.
use std::cell::UnsafeCell;
use std::sync::atomic::{AtomicU64, Ordering::SeqCst};

const BLOCKS: usize = 4096;

struct Crew {
    words: Vec<AtomicU64>,
    slots: Vec<UnsafeCell<Option<u64>>>,
    /// The index of the word that counts the claims.
    claims: usize,
    /// The index of the word before the root's: node p has the word `nodes + p`.
    nodes: usize,
}

unsafe impl Sync for Crew {}

fn run(block: usize, turns: u32) -> u64 {
    let mut x = block as u64 | 1;
    for _ in 0..turns {
        x ^= x << 13;
        x ^= x >> 7;
        x ^= x << 17;
    }
    x
}

impl Crew {
    fn new(apart: bool) -> Crew {
        // 32 words are two lines, since processors fetch lines in pairs
        let nodes = if apart { 32 } else { 0 };
        Crew {
            words: (0..nodes + BLOCKS + 1).map(|_| AtomicU64::new(0)).collect(),
            slots: (0..BLOCKS).map(|_| UnsafeCell::new(None)).collect(),
            claims: if apart { 8 } else { 0 },
            nodes,
        }
    }

    fn take(&self, slot: usize) -> u64 {
        unsafe { (*self.slots[slot].get()).take().unwrap() }
    }

    fn put(&self, slot: usize, part: u64) {
        unsafe { *self.slots[slot].get() = Some(part) };
    }

    fn settle(&self, block: usize, part: u64) {
        self.put(block, part);
        let mut node = BLOCKS + block;
        let mut height = 0;
        while node > 1 {
            let parent = node / 2;
            if self.words[self.nodes + parent].fetch_or((node % 2 + 1) as u64, SeqCst) == 0 {
                return;
            }
            let left = ((2 * parent) << height) - BLOCKS;
            let right = ((2 * parent + 1) << height) - BLOCKS;
            let merged = self.take(left).wrapping_add(self.take(right));
            self.put(left, merged);
            node = parent;
            height += 1;
        }
        self.words[self.nodes + BLOCKS].fetch_or(1, SeqCst);
    }

    fn work(&self, turns: u32) {
        loop {
            let block = self.words[self.claims].fetch_add(1, SeqCst) as usize;
            if block >= BLOCKS {
                return;
            }
            self.settle(block, run(block, turns));
        }
    }
}

fn run_crew(workers: u32, turns: u32, apart: bool) -> u64 {
    let crew = Crew::new(apart);
    std::thread::scope(|scope| {
        for _ in 1..workers {
            scope.spawn(|| crew.work(turns));
        }
        crew.work(turns);
    });
    crew.take(0)
}

fn main() {
    let words: Vec<String> = std::env::args().collect();
    let number = |i: usize| words[i].parse::<u32>().unwrap();
    let (rounds, workers, turns) = (number(1), number(2), number(3));
    let apart = words.get(4).is_some_and(|word| word == "apart");
    let mut sum = 0u64;
    for _ in 0..rounds {
        sum = sum.wrapping_add(run_crew(workers, turns, apart));
    }
    println!("{sum}");
}
