//! The points and the ring of crates/bench_band, each point asked of the whole ring as at_geom's `shapes_meet` does, without
//! bands: `bands COUNT EDGES` counts the positions that meet the ring. Like there a question goes over the ring's positions
//! for its extent, over its edges for a touch, and over them again for the parity.
use std::env;
use std::hint::black_box;

const SHAPES: u64 = 16_384;

#[derive(Clone, Copy, PartialEq)]
struct Pos {
    x: i64,
    y: i64,
}

type Path = Vec<Pos>;

struct Polygon {
    rings: Vec<Path>,
}

struct Shape {
    points: Path,
    polygons: Vec<Polygon>,
}

#[derive(Clone, Copy)]
struct Extent {
    low: Pos,
    high: Pos,
}

impl Extent {
    fn widened(self, p: Pos) -> Extent {
        Extent {
            low: Pos { x: p.x.min(self.low.x), y: p.y.min(self.low.y) },
            high: Pos { x: p.x.max(self.high.x), y: p.y.max(self.high.y) },
        }
    }

    fn touches_box(self, a: Pos, b: Pos) -> bool {
        overlap(self.low.x, self.high.x, a.x, b.x) && overlap(self.low.y, self.high.y, a.y, b.y)
    }
}

fn overlap(a: i64, b: i64, c: i64, d: i64) -> bool {
    a.min(b) <= c.max(d) && c.min(d) <= a.max(b)
}

fn turn(a: Pos, b: Pos, c: Pos) -> i128 {
    (b.x - a.x) as i128 * (c.y - a.y) as i128 - (b.y - a.y) as i128 * (c.x - a.x) as i128
}

fn segments_meet(a: Pos, b: Pos, c: Pos, d: Pos) -> bool {
    overlap(a.x, b.x, c.x, d.x)
        && overlap(a.y, b.y, c.y, d.y)
        && turn(a, b, c).signum() * turn(a, b, d).signum() <= 0
        && turn(c, d, a).signum() * turn(c, d, b).signum() <= 0
}

/// On an edge, or in the ring by an odd number of crossings.
fn in_ring(p: Pos, ring: &[Pos]) -> bool {
    let mut odd = false;
    for edge in ring.windows(2) {
        let (a, b) = (edge[0], edge[1]);
        if p.y < a.y.min(b.y) || p.y > a.y.max(b.y) {
            continue;
        }
        let side = turn(a, b, p);
        if side == 0 {
            if a.x.min(b.x) <= p.x && p.x <= a.x.max(b.x) {
                return true;
            }
        } else if (a.y <= p.y) != (b.y <= p.y) && (side > 0) == (a.y <= p.y) {
            odd = !odd;
        }
    }
    odd
}

fn extent(shape: &Shape) -> Option<Extent> {
    let rings = shape.polygons.iter().flat_map(|polygon| &polygon.rings);
    let mut covered: Option<Extent> = None;
    for path in std::iter::once(&shape.points).chain(rings) {
        for p in path {
            covered = Some(covered.unwrap_or(Extent { low: *p, high: *p }).widened(*p));
        }
    }
    covered
}

fn are_closed(shape: &Shape) -> bool {
    shape.polygons.iter().all(|polygon| polygon.rings[0].first() == polygon.rings[0].last())
}

/// Whether a shape of points and one of polygons without holes meet.
fn meet(one: &Shape, kept: &Shape) -> bool {
    let (Some(around), Some(around_kept)) = (extent(one), extent(kept)) else {
        return false;
    };
    if !around.touches_box(around_kept.low, around_kept.high) && are_closed(one) && are_closed(kept) {
        return false;
    }
    let rings = || kept.polygons.iter().flat_map(|polygon| &polygon.rings);
    let touches = |p: Pos| rings().any(|ring| ring.windows(2).any(|edge| segments_meet(p, p, edge[0], edge[1])));
    one.points.iter().any(|p| around_kept.touches_box(*p, *p) && touches(*p))
        || one.points.iter().any(|p| around_kept.touches_box(*p, *p) && rings().any(|ring| in_ring(*p, ring)))
}

struct Random {
    seed: u64,
}

impl Random {
    fn coordinate(&mut self) -> u64 {
        self.seed = self.seed.wrapping_mul(6_364_136_223_846_793_005).wrapping_add(1_442_695_040_888_963_407);
        self.seed >> 44
    }

    fn position(&mut self) -> Pos {
        let x = self.coordinate();
        position_of(x, self.coordinate())
    }
}

fn position_of(x: u64, y: u64) -> Pos {
    Pos { x: (x % 1_048_576) as i64, y: (y % 1_048_576) as i64 }
}

/// The position on a square that stands on its corner, `t` of `of` parts of the way round it, moved inwards.
fn on_square(t: u64, of: u64, inwards: u64) -> Pos {
    let half = 524_287u64;
    let side = t * 4 / of;
    let a = t * 4 * half / of - side * half;
    let b = half - a;
    let (right, left) = (half.wrapping_sub(inwards), half + inwards);
    match side {
        0 => position_of(right.wrapping_add(b), half + a),
        1 => position_of(left.wrapping_sub(a), half + b),
        2 => position_of(left.wrapping_sub(b), half - a),
        _ => position_of(right.wrapping_add(a), half - b),
    }
}

fn ring(random: &mut Random, edges: u64) -> Path {
    let first = on_square(0, edges, 0);
    let mut ring = vec![first];
    for t in 1..edges {
        ring.push(on_square(t, edges, random.coordinate() % 4_096));
    }
    ring.push(first);
    ring
}

fn main() {
    let mut words = env::args().skip(1).map(|word| word.parse::<u64>().expect("a number"));
    let (count, edges) = (words.next().expect("a count"), words.next().expect("a number of edges"));
    let mut random = Random { seed: 20 };
    let kept = Shape { points: Vec::new(), polygons: vec![Polygon { rings: vec![ring(&mut random, edges)] }] };
    let shapes: Vec<Shape> =
        (0..SHAPES).map(|_| Shape { points: vec![random.position()], polygons: Vec::new() }).collect();
    let mut found = 0u64;
    for _ in 0..count / SHAPES {
        found += shapes.iter().filter(|shape| meet(shape, black_box(&kept))).count() as u64;
    }
    println!("{found}");
}
