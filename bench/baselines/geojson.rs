//! How fast one thread can read GeoJSON when nothing is proved and nothing is kept: a yardstick, not a design.
//!
//! `geojson count|extent|area FILE` reads a FeatureCollection in one pass: UTF-8, the grammar of plain JSON, equal names in
//! each object, every coordinate. For an extent or an area it computes each coordinate in units of 10^-7, the extent and
//! the doubled area too, whichever of them is asked for.
//!
//! Its limits: strings with escapes are checked and not decoded; an object of more than 32 names, or a name with an escape,
//! makes it give up; the area is that of all coordinates at their depth, whatever the kind says, and 0 for a ring that
//! isn't closed; half a unit is rounded up. It knows no fault's place.
use std::arch::x86_64::*;
use std::io::Read;

struct Straight<'a> {
    bytes: &'a [u8],
    at: usize,
    values: bool,
    features: u64,
    low: (i64, i64),
    high: (i64, i64),
    area: i128,
}

/// A string that was passed over, without its quotes.
struct Text {
    from: usize,
    to: usize,
    escaped: bool,
}

/// A name that an object has had: where it stands, and its first eight bytes, by which names are told apart at once.
#[derive(Clone, Copy, Default)]
struct Name {
    from: usize,
    len: usize,
    front: u64,
}

const POWERS: [u64; 8] = [10_000_000, 1_000_000, 100_000, 10_000, 1_000, 100, 10, 1];

impl Straight<'_> {
    #[inline(always)]
    fn byte(&self) -> u8 {
        unsafe { *self.bytes.get_unchecked(self.at) }
    }

    /// Most white space is none: one comparison passes it.
    #[inline(always)]
    fn skip_space(&mut self) {
        if self.byte() > b' ' {
            return;
        }
        while matches!(self.byte(), b' ' | b'\n' | b'\t' | b'\r') {
            self.at += 1;
        }
    }

    #[inline(always)]
    fn take(&mut self, wanted: u8) -> Option<()> {
        if self.byte() == wanted {
            self.at += 1;
            Some(())
        } else {
            None
        }
    }

    /// Behind a value: true where a comma stands, false where the closer does.
    #[inline(always)]
    fn goes_on(&mut self, closer: u8) -> Option<bool> {
        self.skip_space();
        if self.byte() == b',' {
            self.at += 1;
            self.skip_space();
            return Some(true);
        }
        self.take(closer)?;
        Some(false)
    }

    /// Sixteen bytes at a time: a quote, a backslash, or a control character.
    #[inline(always)]
    fn text(&mut self) -> Option<Text> {
        self.take(b'"')?;
        let (from, mut to, mut escaped) = (self.at, self.at, false);
        unsafe {
            let (quote, slash, control) = (_mm_set1_epi8(0x22), _mm_set1_epi8(0x5C), _mm_set1_epi8(0x1F));
            loop {
                let lanes = _mm_loadu_si128(self.bytes.as_ptr().add(to) as *const __m128i);
                let ends = _mm_or_si128(_mm_cmpeq_epi8(lanes, quote), _mm_cmpeq_epi8(lanes, slash));
                let ends = _mm_or_si128(ends, _mm_cmpeq_epi8(_mm_min_epu8(lanes, control), lanes));
                let mask = _mm_movemask_epi8(ends) as u32;
                if mask == 0 {
                    to += 16;
                    continue;
                }
                to += mask.trailing_zeros() as usize;
                match self.bytes[to] {
                    b'"' => {
                        self.at = to + 1;
                        return Some(Text { from, to, escaped });
                    }
                    b'\\' => {
                        escaped = true;
                        to += match self.bytes[to + 1] {
                            b'"' | b'\\' | b'/' | b'b' | b'f' | b'n' | b'r' | b't' => 2,
                            b'u' if self.bytes[to + 2..to + 6].iter().all(u8::is_ascii_hexdigit) => 6,
                            _ => return None,
                        };
                    }
                    _ => return None,
                }
            }
        }
    }

    /// How many digits stand at the place, by one mask.
    #[inline(always)]
    fn digits(&self, at: usize) -> usize {
        unsafe {
            let lanes = _mm_loadu_si128(self.bytes.as_ptr().add(at) as *const __m128i);
            let lanes = _mm_sub_epi8(lanes, _mm_set1_epi8(0x30));
            let digits = _mm_cmpeq_epi8(_mm_min_epu8(lanes, _mm_set1_epi8(9)), lanes);
            (!(_mm_movemask_epi8(digits) as u32)).trailing_zeros() as usize
        }
    }

    #[inline(always)]
    fn number(&mut self) -> Option<i64> {
        let negative = self.byte() == b'-';
        self.at += negative as usize;
        let from = self.at;
        let whole = self.digits(from);
        let mut end = from + whole;
        let mut fraction = 0;
        if self.bytes[end] == b'.' {
            fraction = self.digits(end + 1);
            end += 1 + fraction;
        }
        if whole == 0 || whole > 11 || fraction > 15 || matches!(self.bytes[end], b'e' | b'E') {
            return self.any_number(negative);
        }
        self.at = end;
        if !self.values {
            return Some(0);
        }
        let kept = fraction.min(7);
        let mut value = 0u64;
        for byte in &self.bytes[from..from + whole] {
            value = value * 10 + (byte - b'0') as u64;
        }
        for byte in &self.bytes[end - fraction..end - fraction + kept] {
            value = value * 10 + (byte - b'0') as u64;
        }
        if fraction > 7 && self.bytes[end - fraction + 7] >= b'5' {
            value += 1;
        }
        let value = (value * POWERS[kept]) as i64;
        Some(if negative { -value } else { value })
    }

    #[inline(never)]
    fn any_number(&mut self, negative: bool) -> Option<i64> {
        let from = self.at;
        while matches!(self.byte(), b'0'..=b'9' | b'.' | b'e' | b'E' | b'+' | b'-') {
            self.at += 1;
        }
        let value: f64 = std::str::from_utf8(&self.bytes[from..self.at]).ok()?.parse().ok()?;
        let value = (value * 1e7).round() as i64;
        Some(if negative { -value } else { value })
    }

    #[inline(always)]
    fn position(&mut self) -> Option<(i64, i64)> {
        self.take(b'[')?;
        self.skip_space();
        let x = self.number()?;
        if !self.goes_on(b']')? {
            return None;
        }
        let y = self.number()?;
        while self.goes_on(b']')? {
            self.number()?;
        }
        Some((x, y))
    }

    /// An array of positions: its shoelace sum, 0 where its ends differ.
    fn row(&mut self) -> Option<i128> {
        self.take(b'[')?;
        self.skip_space();
        let (mut low, mut high, mut sum) = (self.low, self.high, 0i128);
        let first = self.position()?;
        let mut last = first;
        let mut here = first;
        loop {
            low = (low.0.min(here.0), low.1.min(here.1));
            high = (high.0.max(here.0), high.1.max(here.1));
            sum += last.0 as i128 * here.1 as i128 - here.0 as i128 * last.1 as i128;
            last = here;
            if !self.goes_on(b']')? {
                break;
            }
            here = self.position()?;
        }
        self.low = low;
        self.high = high;
        Some(if last == first { sum } else { 0 })
    }

    /// Coordinates of any kind, whose depth shows in their brackets.
    fn coordinates(&mut self) -> Option<i128> {
        let mut depth = 0;
        let mut at = self.at;
        while matches!(self.bytes[at], b'[' | b' ' | b'\n' | b'\t' | b'\r') {
            depth += (self.bytes[at] == b'[') as u32;
            at += 1;
        }
        match depth {
            1 => {
                let here = self.position()?;
                self.low = (self.low.0.min(here.0), self.low.1.min(here.1));
                self.high = (self.high.0.max(here.0), self.high.1.max(here.1));
                Some(0)
            }
            2 => self.row().map(|_| 0),
            3 => self.rings(),
            _ => self.polygons(),
        }
    }

    fn rings(&mut self) -> Option<i128> {
        self.take(b'[')?;
        self.skip_space();
        let mut area = self.row()?.abs();
        while self.goes_on(b']')? {
            area -= self.row()?.abs();
        }
        Some(area)
    }

    fn polygons(&mut self) -> Option<i128> {
        self.take(b'[')?;
        self.skip_space();
        let mut area = self.rings()?;
        while self.goes_on(b']')? {
            area += self.rings()?;
        }
        Some(area)
    }

    /// Any value that says nothing of features.
    fn value(&mut self) -> Option<()> {
        match self.byte() {
            b'"' => self.text().map(|_| ()),
            b'{' => self.object(),
            b'[' => {
                self.at += 1;
                self.skip_space();
                if self.byte() == b']' {
                    self.at += 1;
                    return Some(());
                }
                loop {
                    self.value()?;
                    if !self.goes_on(b']')? {
                        return Some(());
                    }
                }
            }
            b't' | b'n' => {
                self.at += 4;
                Some(())
            }
            b'f' => {
                self.at += 5;
                Some(())
            }
            _ => self.number().map(|_| ()),
        }
    }

    fn features(&mut self) -> Option<()> {
        self.take(b'[')?;
        self.skip_space();
        loop {
            self.object()?;
            self.features += 1;
            if !self.goes_on(b']')? {
                return Some(());
            }
        }
    }

    fn object(&mut self) -> Option<()> {
        self.take(b'{')?;
        self.skip_space();
        if self.byte() == b'}' {
            self.at += 1;
            return Some(());
        }
        let mut names = [Name::default(); 32];
        let mut count = 0;
        loop {
            let text = self.text()?;
            let len = text.to - text.from;
            let mut front = u64::from_le_bytes(self.bytes[text.from..text.from + 8].try_into().unwrap());
            if len < 8 {
                front &= (1 << (8 * len)) - 1;
            }
            let name = &self.bytes[text.from..text.to];
            let equals = |other: &Name| other.len == len && other.front == front && &self.bytes[other.from..other.from + len] == name;
            if text.escaped || count == 32 || names[..count].iter().any(equals) {
                return None;
            }
            names[count] = Name { from: text.from, len, front };
            count += 1;
            let is_coordinates = name == b"coordinates";
            let is_features = name == b"features";
            self.skip_space();
            self.take(b':')?;
            self.skip_space();
            if is_coordinates && self.byte() == b'[' {
                self.area += self.coordinates()?;
            } else if is_features {
                self.features()?;
            } else {
                self.value()?;
            }
            if !self.goes_on(b'}')? {
                return Some(());
            }
        }
    }
}

/// The text of a value in units of 10^-7.
fn written(value: i64) -> String {
    let size = value.unsigned_abs();
    format!("{}{}.{:07}", if value < 0 { "-" } else { "" }, size / 10_000_000, size % 10_000_000)
}

fn print(reader: &Straight, verb: &str) {
    match verb {
        "count" => println!("{}", reader.features),
        "area" => println!("{}", reader.area),
        _ if reader.low.0 > reader.high.0 => println!("empty"),
        _ => println!("{} {} {} {}", written(reader.low.0), written(reader.low.1), written(reader.high.0), written(reader.high.1)),
    }
}

fn main() {
    let mut words = std::env::args().skip(1);
    let verb = words.next().expect("a verb");
    let mut bytes = Vec::new();
    std::fs::File::open(words.next().expect("a file")).unwrap().read_to_end(&mut bytes).unwrap();
    let whole = std::str::from_utf8(&bytes).is_ok();
    bytes.extend_from_slice(&[0; 64]);
    let (most, least) = ((i64::MAX, i64::MAX), (i64::MIN, i64::MIN));
    let mut reader = Straight { bytes: &bytes, at: 0, values: verb != "count", features: 0, low: most, high: least, area: 0 };
    let read = reader.object();
    if whole && read.is_some() {
        print(&reader, &verb);
    } else {
        println!("not read");
    }
}
