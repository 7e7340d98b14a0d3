//! The lines that the program `limits` prints.

/// What a kind of header allows of a field, and the refusal of other values.
pub struct Range {
    pub first: u64,
    pub last: u64,
    refusal: u8,
}

impl Range {
    /// Only 0: the kind does not have the field.
    pub fn is_absent(&self) -> bool {
        (self.first, self.last) == (0, 0)
    }

    pub fn allows(&self, value: u64) -> bool {
        self.first <= value && value <= self.last
    }
}

/// A kind of header: its name and its number in niranbok.h.
#[derive(Clone, Copy, PartialEq, Eq)]
pub struct Kind {
    pub name: &'static str,
    pub number: u8,
}

pub const PLAIN: Kind = kind("plain", 0);
pub const EXTENDED: Kind = kind("extended", 1);
pub const SHORT: Kind = kind("short", 2);

/// In the order of the columns, which is that of their numbers.
pub const KINDS: [Kind; 3] = [PLAIN, EXTENDED, SHORT];

const fn kind(name: &'static str, number: u8) -> Kind {
    Kind { name, number }
}

/// A line `field`.
pub struct Row {
    pub name: String,
    ranges: Vec<Option<Range>>,
    pub up_to: u64,
    above: u8,
}

impl Row {
    pub fn of(&self, kind: Kind) -> Option<&Range> {
        self.ranges[usize::from(kind.number)].as_ref()
    }

    /// The number that a value gets, by the line.
    pub fn refusal(&self, range: &Range, value: u64) -> u8 {
        match value {
            n if range.allows(n) => 0,
            n if n <= self.up_to => range.refusal,
            _ => self.above,
        }
    }
}

/// A line `place`: where a field starts in a setting, and its bytes.
pub struct Place {
    pub name: String,
    pub at: usize,
    pub bytes: usize,
}

pub struct Table {
    pub rows: Vec<Row>,
    pub places: Vec<Place>,
    lengths: Vec<(String, usize)>,
}

impl Table {
    pub fn new(printed: &str) -> Table {
        let mut table = Table {
            rows: Vec::new(),
            places: Vec::new(),
            lengths: Vec::new(),
        };
        for line in printed.lines() {
            let words: Vec<&str> = line.split('\t').collect();
            match words[..] {
                ["field", name, ref columns @ ..] => table.rows.push(row(name, columns)),
                ["place", name, at, bytes] => table.places.push(Place {
                    name: name.into(),
                    at: number(at),
                    bytes: number(bytes),
                }),
                ["length", name, bytes] => table.lengths.push((name.into(), number(bytes))),
                ["refusal", _, _] => {}
                _ => panic!("a line that is none: {line}"),
            }
        }
        table
    }

    /// Zeros for what has this length.
    pub fn zeros(&self, name: &str) -> Vec<u8> {
        vec![0; self.length(name)]
    }

    /// The same for what is shorter in the short kind.
    pub fn zeros_of(&self, kind: Kind, name: &str) -> Vec<u8> {
        vec![0; self.length_of(kind, name)]
    }

    fn length(&self, name: &str) -> usize {
        let length = self.lengths.iter().find(|(named, _)| named == name);
        let (_, bytes) = length.unwrap_or_else(|| panic!("limits prints no length {name}"));
        *bytes
    }

    fn length_of(&self, kind: Kind, name: &str) -> usize {
        match kind {
            SHORT => self.length(&format!("short_{name}")),
            _ => self.length(name),
        }
    }

    /// How many streams or slots a kind has.
    pub fn last(&self, kind: Kind, name: &str) -> usize {
        let row = self.rows.iter().find(|row| row.name == name);
        let range = row.and_then(|row| row.of(kind));
        let range = range.unwrap_or_else(|| panic!("limits prints no {name}"));
        range.last as usize
    }

    /// How many of a setting's values of a field a kind has. Those behind are 0.
    pub fn reach(&self, kind: Kind, place: &Place) -> usize {
        match place.name.as_str() {
            "ts_id" | "original_network_id" | "receive_status" => self.last(kind, "stream"),
            "relative_ts_number" => self.last(kind, "slot"),
            "private_data" if kind != EXTENDED => self.length_of(kind, "private_data"),
            _ => place.bytes,
        }
    }

    /// What the values of a field are multiples of. An availability has no bits
    /// behind the last stream's, and stream r's is bit 15 - r.
    pub fn step(&self, kind: Kind, name: &str) -> u64 {
        match name {
            "availability" => 1 << (15 - self.last(kind, "stream")),
            _ => 1,
        }
    }
}

fn number<N: std::str::FromStr>(word: &str) -> N {
    let parsed = word.parse().ok();
    parsed.unwrap_or_else(|| panic!("{word} is no number, or too large"))
}

fn row(name: &str, columns: &[&str]) -> Row {
    let [ranges @ .., up_to, above] = columns else {
        panic!("field {name} has {} columns", columns.len());
    };
    let ranges: Vec<Option<Range>> = ranges.chunks(3).map(range).collect();
    assert_eq!(ranges.len(), KINDS.len(), "ranges of field {name}");
    Row {
        name: name.into(),
        ranges,
        up_to: number(up_to),
        above: number(above),
    }
}

fn range(columns: &[&str]) -> Option<Range> {
    match columns {
        ["-", "-", "-"] => None,
        [first, last, refusal] => Some(Range {
            first: number(first),
            last: number(last),
            refusal: number(refusal),
        }),
        _ => panic!("{} columns for a range", columns.len()),
    }
}
