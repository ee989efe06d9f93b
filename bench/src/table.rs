//! The table: one line a row, the proved library first, and each peer with a ratio.

/// One row: the seconds of the proved library, and those of each peer that can do the same work.
pub struct Row {
    pub name: String,
    pub unit: Unit,
    pub proved: f64,
    pub plain: Option<f64>,
    pub calls: Option<f64>,
    pub walks: Option<f64>,
    pub foma: Option<f64>,
    pub pcre2: Option<f64>,
}

/// A peer's column: its heading, and its time in a row.
type Column = (&'static str, fn(&Row) -> Option<f64>);

const RUST: Column = ("Rust", |row| row.plain);

/// The columns of HEAT, and of every other section.
pub const CALLS: &[Column] = &[RUST, ("ten calls", |row| row.calls)];
pub const PEERS: &[Column] =
    &[RUST, ("two walks", |row| row.walks), ("foma", |row| row.foma), ("PCRE2", |row| row.pcre2)];

/// For a difference of two times that came out below 0.
const UNCLEAR: &str = "?";

/// How the seconds of a row are shown.
#[derive(Clone, Copy)]
pub enum Unit {
    /// Million symbols per second, of a tape of that many.
    Symbols(usize),
    /// Microseconds.
    Micros,
    Seconds,
    /// Nanoseconds a line, of that many lines.
    PerLine(usize),
}

impl Row {
    pub fn new(name: impl Into<String>, unit: Unit, proved: f64) -> Row {
        Row { name: name.into(), unit, proved, plain: None, calls: None, walks: None, foma: None, pcre2: None }
    }

    pub fn plain(self, time: f64) -> Row {
        Row { plain: Some(time), ..self }
    }

    pub fn calls(self, time: f64) -> Row {
        Row { calls: Some(time), ..self }
    }

    pub fn walks(self, time: f64) -> Row {
        Row { walks: Some(time), ..self }
    }

    pub fn foma(self, time: Option<f64>) -> Row {
        Row { foma: time, ..self }
    }

    pub fn pcre2(self, time: Option<f64>) -> Row {
        Row { pcre2: time, ..self }
    }

    fn ratio(&self, time: f64) -> String {
        if self.proved > 0.0 && time > 0.0 {
            format!("x{}", digits(self.proved / time))
        } else {
            UNCLEAR.to_string()
        }
    }

    fn print(&self, columns: &[Column]) {
        print!("{:<64}{:>9}", self.name, self.unit.show(self.proved));
        for (_, time) in columns {
            match time(self) {
                Some(time) => print!("{:>10} {:>8}", self.unit.show(time), self.ratio(time)),
                None => print!("{:>10} {:>8}", "-", ""),
            }
        }
        println!();
    }
}

impl Unit {
    fn show(self, seconds: f64) -> String {
        if seconds <= 0.0 {
            return UNCLEAR.to_string();
        }
        match self {
            Unit::Symbols(count) => digits(count as f64 / seconds / 1e6),
            Unit::Micros => digits(seconds * 1e6),
            Unit::Seconds => digits(seconds),
            Unit::PerLine(count) => digits(seconds * 1e9 / count as f64),
        }
    }
}

/// Three digits that count.
fn digits(number: f64) -> String {
    let places = 2.0 - number.log10().floor();
    format!("{number:.*}", places.clamp(0.0, 7.0) as usize)
}

/// A part of the table, with the columns behind that of the proved library.
pub struct Section(&'static [Column]);

impl Section {
    pub fn begin(title: &str, columns: &'static [Column]) -> Section {
        print!("\n{title}\n{:<64}{:>9}", "", "proved");
        columns.iter().for_each(|(name, _)| print!("{name:>10} {:>8}", ""));
        println!();
        Section(columns)
    }

    pub fn print(&self, rows: &[Row]) {
        rows.iter().for_each(|row| row.print(self.0));
    }
}
