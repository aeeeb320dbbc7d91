//! A trace: what each of its lines says, and its text with one line put otherwise.

/// What a line says. Lines are numbered from 1, as replay numbers them; the first one is the head.
#[derive(Clone, Copy)]
pub enum Line {
    Head,
    Write { address: u8, value: u8, answer: u8 },
    Read { address: u8, value: u8, answer: u8 },
    Vector { vector: u8, answer: u8 },
    Clocks { levels: u8, clocks: usize },
}

pub struct Trace {
    pub name: String,
    texts: Vec<String>,
    pub lines: Vec<Line>,
}

impl Trace {
    pub fn of(name: &str, text: &str) -> Result<Trace, String> {
        let texts: Vec<String> = text.lines().map(str::to_string).collect();
        let mut lines = Vec::new();
        for (place, text) in texts.iter().enumerate() {
            lines.push(said(text).ok_or(format!("{name}, line {}: not understood", place + 1))?);
        }
        let trace = Trace { name: name.to_string(), texts, lines };
        // What is played is what stands in the file, byte for byte.
        if trace.text() != text.as_bytes() {
            return Err(format!("{name}: a line does not end with LF alone"));
        }
        Ok(trace)
    }

    /// A message about the line at a place, from 0.
    pub fn at(&self, place: usize, text: &str) -> String {
        format!("{}, line {}: {text}", self.name, place + 1)
    }

    pub fn text(&self) -> Vec<u8> {
        self.texts.iter().flat_map(|text| [text.as_str(), "\n"]).flat_map(str::bytes).collect()
    }

    /// The text with the line at a place, from 0, put as another one.
    pub fn with_line(&self, place: usize, other: &str) -> Vec<u8> {
        let mut texts: Vec<&str> = self.texts.iter().map(String::as_str).collect();
        texts[place] = other;
        format!("{}\n", texts.join("\n")).into_bytes()
    }

    /// The line with a leading zero in its last number.
    pub fn malformed(&self, place: usize) -> String {
        let (before, last) = self.texts[place].rsplit_once('\t').unwrap_or(("", ""));
        format!("{before}\t0{last}")
    }
}

fn said(text: &str) -> Option<Line> {
    let fields: Vec<&str> = text.split('\t').collect();
    let byte = |n: usize| fields[n].parse().ok();
    match (fields[0], fields.len()) {
        ("chime", 2) => Some(Line::Head),
        ("W", 4) => Some(Line::Write { address: byte(1)?, value: byte(2)?, answer: byte(3)? }),
        ("R", 4) => Some(Line::Read { address: byte(1)?, value: byte(2)?, answer: byte(3)? }),
        ("A", 3) => Some(Line::Vector { vector: byte(1)?, answer: byte(2)? }),
        ("C", 3) => Some(Line::Clocks { levels: byte(1)?, clocks: fields[2].parse().ok()? }),
        _ => None,
    }
}

/// Whether a line records an answer.
pub fn is_call(line: Line) -> bool {
    !matches!(line, Line::Head | Line::Clocks { .. })
}

/// The texts of a call with another answer and, of a read, with another value alone. Which bit of the value is turned
/// goes by the line's place.
pub fn changed(line: Line, place: usize) -> Vec<String> {
    match line {
        Line::Write { address, value, answer } => {
            vec![format!("W\t{address}\t{value}\t{}", answer ^ 1)]
        }
        Line::Read { address, value, answer } => vec![
            format!("R\t{address}\t{value}\t{}", answer ^ 1),
            format!("R\t{address}\t{}\t{answer}", value ^ 1 << (place % 8)),
        ],
        Line::Vector { vector, answer } => vec![format!("A\t{vector}\t{}", answer ^ 1)],
        Line::Head | Line::Clocks { .. } => Vec::new(),
    }
}
