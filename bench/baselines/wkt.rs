// Counts the lines of a file of Well-Known Text, or answers another verb over them: a plain loop that reads each line's positions
// into vectors of pairs, in units of 10^-7, rounded to the nearest even. It reads points, lines and polygons, and expects them well-formed.
mod numbers;

use std::env;
use std::fs;

/// The value of the number that stands at a place, and the place behind it.
fn read_number(text: &[u8], from: usize) -> (i64, usize) {
    let (size, minus, at) = numbers::read_number(text, from);
    (if minus { -(size as i64) } else { size as i64 }, at)
}

/// The positions from an opening bracket to its closing one, and the place behind that.
fn read_positions(text: &[u8], from: usize) -> (Vec<(i64, i64)>, usize) {
    let mut positions = Vec::new();
    let mut at = from + 1;
    loop {
        let (x, behind) = read_number(text, at);
        let (y, behind) = read_number(text, behind + 1);
        positions.push((x, y));
        if behind >= text.len() || text[behind] == b')' {
            return (positions, behind + 1);
        }
        at = behind + 1;
    }
}

/// The lists of positions of a line.
fn read_line(text: &[u8]) -> Vec<Vec<(i64, i64)>> {
    let mut lists = Vec::new();
    let open = text.iter().position(|b| *b == b'(').unwrap_or(0);
    if text.starts_with(b"POLYGON") {
        let mut at = open + 1;
        loop {
            let (positions, behind) = read_positions(text, at);
            lists.push(positions);
            if behind >= text.len() || text[behind] == b')' {
                return lists;
            }
            at = behind + 1;
        }
    }
    lists.push(read_positions(text, open).0);
    lists
}

/// The least and the greatest x and y of a shape's positions.
#[derive(Clone, Copy)]
struct Extent {
    low: (i64, i64),
    high: (i64, i64),
}

const NOTHING: Extent = Extent { low: (i64::MAX, i64::MAX), high: (i64::MIN, i64::MIN) };

fn widened(e: Extent, p: (i64, i64)) -> Extent {
    Extent { low: (e.low.0.min(p.0), e.low.1.min(p.1)), high: (e.high.0.max(p.0), e.high.1.max(p.1)) }
}

/// Twice the area of a polygon: the exterior's less those of its holes.
fn doubled_area(rings: &[Vec<(i64, i64)>]) -> i128 {
    let mut area = 0;
    for (n, ring) in rings.iter().enumerate() {
        let sum: i128 = ring.windows(2).map(|s| s[0].0 as i128 * s[1].1 as i128 - s[1].0 as i128 * s[0].1 as i128).sum();
        area += if n == 0 { sum.abs() } else { -sum.abs() };
    }
    area
}

fn turn(a: (i64, i64), b: (i64, i64), c: (i64, i64)) -> i32 {
    let z = (b.0 - a.0) as i128 * (c.1 - a.1) as i128 - (b.1 - a.1) as i128 * (c.0 - a.0) as i128;
    (z > 0) as i32 - (z < 0) as i32
}

fn is_between(a: (i64, i64), b: (i64, i64), p: (i64, i64)) -> bool {
    p.0 >= a.0.min(b.0) && p.0 <= a.0.max(b.0) && p.1 >= a.1.min(b.1) && p.1 <= a.1.max(b.1)
}

fn segments_meet(a: (i64, i64), b: (i64, i64), c: (i64, i64), d: (i64, i64)) -> bool {
    let (abc, abd, cda, cdb) = (turn(a, b, c), turn(a, b, d), turn(c, d, a), turn(c, d, b));
    abc * abd < 0 && cda * cdb < 0
        || abc == 0 && is_between(a, b, c)
        || abd == 0 && is_between(a, b, d)
        || cda == 0 && is_between(c, d, a)
        || cdb == 0 && is_between(c, d, b)
}

/// Whether a ring has a point inside, by the edges that a ray from it crosses.
fn is_inside(ring: &[(i64, i64)], p: (i64, i64)) -> bool {
    let mut inside = false;
    for s in ring.windows(2) {
        if (s[0].1 <= p.1) != (s[1].1 <= p.1) {
            inside ^= (turn(s[0], s[1], p) > 0) == (s[0].1 < s[1].1);
        }
    }
    inside
}

/// Whether a shape meets a closed box: extents first, then positions in the box, edges, and the box inside a polygon.
fn meets_box(lists: &[Vec<(i64, i64)>], is_polygon: bool, of: Extent) -> bool {
    let own = lists.iter().flatten().fold(NOTHING, |e, p| widened(e, *p));
    if own.low.0 > of.high.0 || own.high.0 < of.low.0 || own.low.1 > of.high.1 || own.high.1 < of.low.1 {
        return false;
    }
    if lists.iter().flatten().any(|p| is_between(of.low, of.high, *p)) {
        return true;
    }
    let corners = [of.low, (of.high.0, of.low.1), of.high, (of.low.0, of.high.1), of.low];
    let edges = || lists.iter().flat_map(|list| list.windows(2));
    edges().any(|s| corners.windows(2).any(|e| segments_meet(s[0], s[1], e[0], e[1])))
        || is_polygon && is_inside(&lists[0], of.low) && !lists[1..].iter().any(|hole| is_inside(hole, of.low))
}

/// The text of a value in units of 10^-7.
fn written(value: i64) -> String {
    let size = value.unsigned_abs();
    format!("{}{}.{:07}", if value < 0 { "-" } else { "" }, size / 10_000_000, size % 10_000_000)
}

/// The box of the queries, in units.
const BOX: Extent = Extent { low: (100_000_000, 100_000_000), high: (200_000_000, 200_000_000) };

/// What is asked of the lines.
#[derive(Default)]
struct Gathered {
    count: u64,
    area: i128,
    extent: Option<Extent>,
    offsets: Vec<u32>,
}

fn gather(gathered: &mut Gathered, verb: &str, line: &[u8], at: u32) {
    let lists = read_line(line);
    let is_polygon = line.starts_with(b"POLYGON");
    match verb {
        "count" => gathered.count += 1,
        "area" => gathered.area += if is_polygon { doubled_area(&lists) } else { 0 },
        "extent" => gathered.extent = Some(lists.iter().flatten().fold(gathered.extent.unwrap_or(NOTHING), |e, p| widened(e, *p))),
        _ => {
            if meets_box(&lists, is_polygon, BOX) {
                gathered.offsets.push(at);
            }
        }
    }
    std::hint::black_box(&lists);
}

fn print(gathered: &Gathered, verb: &str) {
    match verb {
        "count" => println!("{}", gathered.count),
        "area" => println!("{}", gathered.area),
        "extent" => match gathered.extent {
            None => println!("empty"),
            Some(e) => println!("{} {} {} {}", written(e.low.0), written(e.low.1), written(e.high.0), written(e.high.1)),
        },
        _ => {
            use std::fmt::Write;
            let mut text = String::new();
            for at in &gathered.offsets {
                writeln!(text, "{at}").expect("a line");
            }
            print!("{text}");
        }
    }
}

/// `wkt VERB FILE`, where the verb is count, area, extent, or select with the box of the queries.
fn main() {
    let mut words = env::args().skip(1);
    let verb = words.next().expect("a verb");
    let text = fs::read(words.next().expect("a file's name")).expect("the file's bytes");
    let mut gathered = Gathered::default();
    let mut at = 0;
    for line in text.split(|b| *b == b'\n') {
        if !line.is_empty() {
            gather(&mut gathered, &verb, line, at);
        }
        at += line.len() as u32 + 1;
    }
    print(&gathered, &verb);
}
