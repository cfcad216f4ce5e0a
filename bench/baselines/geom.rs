// Counts by exact predicates over random positions, in plain Rust: `geom segments COUNT` counts the pairs of segments
// that meet, `geom ring COUNT EDGES` the positions that are in a ring of so many edges.
use std::env;

#[derive(Clone, Copy, PartialEq)]
struct Pos {
    x: i64,
    y: i64,
}

struct Random {
    seed: u64,
}

impl Random {
    fn coordinate(&mut self) -> i64 {
        self.seed = self.seed.wrapping_mul(6_364_136_223_846_793_005).wrapping_add(1_442_695_040_888_963_407);
        (self.seed >> 44) as i64
    }

    fn position(&mut self) -> Pos {
        let x = self.coordinate();
        let y = self.coordinate();
        Pos { x, y }
    }
}

fn orient(a: Pos, b: Pos, c: Pos) -> i128 {
    (b.x - a.x) as i128 * (c.y - a.y) as i128 - (b.y - a.y) as i128 * (c.x - a.x) as i128
}

fn overlap(a: i64, b: i64, c: i64, d: i64) -> bool {
    a.min(b) <= c.max(d) && c.min(d) <= a.max(b)
}

fn segments_meet(a: Pos, b: Pos, c: Pos, d: Pos) -> bool {
    overlap(a.x, b.x, c.x, d.x)
        && overlap(a.y, b.y, c.y, d.y)
        && orient(a, b, c).signum() * orient(a, b, d).signum() <= 0
        && orient(c, d, a).signum() * orient(c, d, b).signum() <= 0
}

/// On an edge, or in it by an odd number of crossings.
fn in_ring(p: Pos, ring: &[Pos]) -> bool {
    let mut odd = false;
    for edge in ring.windows(2) {
        let (a, b) = (edge[0], edge[1]);
        if p.y < a.y.min(b.y) || p.y > a.y.max(b.y) {
            continue;
        }
        let side = orient(a, b, p);
        if side == 0 {
            if a.x.min(b.x) <= p.x && p.x <= a.x.max(b.x) {
                return true;
            }
        } else if (a.y <= p.y) != (b.y <= p.y) && (side > 0) == (a.y <= p.y) {
            odd = !odd;
        }
    }
    odd
}

fn main() {
    let words: Vec<String> = env::args().collect();
    let count: u64 = words[2].parse().unwrap();
    let mut random = Random { seed: 20 };
    let mut found = 0u64;
    if words.len() == 3 {
        for _ in 0..count {
            let (a, b, c, d) = (random.position(), random.position(), random.position(), random.position());
            found += segments_meet(a, b, c, d) as u64;
        }
    } else {
        let edges: u64 = words[3].parse().unwrap();
        let mut ring = vec![random.position()];
        for _ in 1..edges {
            ring.push(random.position());
        }
        ring.push(ring[0]);
        for _ in 0..count {
            found += in_ring(random.position(), &ring) as u64;
        }
    }
    println!("{found}");
}
