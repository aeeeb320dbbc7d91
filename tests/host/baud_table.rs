//! Compares what the program baud writes with a calculation of its own, byte for byte, over many clocks and rates; and
//! sees that wrong arguments have the usage line on standard error and nothing on standard output.
//!
//! baud_table PROGRAM USAGE

use std::collections::BTreeMap;
use std::ffi::{OsStr, OsString};
use std::os::unix::ffi::OsStrExt;
use std::process::{exit, Command};

const CLOCKS: [i128; 15] = [
    1, 16, 1_000_000, 1_843_200, 2_000_000, 3_686_400, 4_000_000, 7_372_800, 8_000_000, 11_059_200,
    12_000_000, 14_745_600, 16_000_000, 18_432_000, 20_000_000,
];

const RATES: [i128; 27] = [
    1, 2, 50, 75, 300, 305, 306, 610, 611, 1_200, 2_400, 4_800, 9_600, 14_400, 19_200, 28_800,
    31_250, 38_400, 57_600, 76_800, 115_200, 230_400, 250_000, 500_000, 1_000_000, 2_000_000,
    2_500_000,
];

/// Beside the products of these: normal speed has the smaller error, since double speed's UBRR is at its end.
const SPECIAL: [(i128, i128); 2] = [(16_390_000, 500), (20_000_000, 610)];

const DRAWN: usize = 600;

/// Document 01, the recommended limits in thousandths at D from 5 to 10.
const NORMAL: [i128; 6] = [30, 25, 20, 20, 15, 15];
const DOUBLE: [i128; 6] = [25, 20, 15, 15, 15, 10];

struct Speed {
    name: &'static str,
    u2x: i128,
    samples: i128,
    limits: [i128; 6],
}

const SPEEDS: [Speed; 2] = [
    Speed {
        name: "normal",
        u2x: 0,
        samples: 16,
        limits: NORMAL,
    },
    Speed {
        name: "double",
        u2x: 1,
        samples: 8,
        limits: DOUBLE,
    },
];

/// A fraction with a positive denominator.
#[derive(Clone, Copy)]
struct Fraction(i128, i128);

impl Fraction {
    fn absolute(self) -> Fraction {
        Fraction(self.0.abs(), self.1)
    }

    fn less(self, other: Fraction) -> bool {
        self.0 * other.1 < other.0 * self.1
    }

    /// The nearest integer, halves away from zero.
    fn rounded(self) -> i128 {
        self.0.signum() * ((2 * self.0.abs() + self.1) / (2 * self.1))
    }
}

/// clock/T − 1.
fn error(clock: i128, total: i128) -> Fraction {
    Fraction(clock - total, total)
}

/// Of all UBRR the one with the smallest absolute error, the larger on a tie.
fn best(clock: i128, rate: i128, samples: i128) -> i128 {
    let absolute = |ubrr: i128| error(clock, samples * (ubrr + 1) * rate).absolute();
    (1..=4095).fold(0, |kept, ubrr| {
        if absolute(kept).less(absolute(ubrr)) {
            kept
        } else {
            ubrr
        }
    })
}

struct Row {
    text: String,
    within: usize,
    error: Fraction,
}

fn row(clock: i128, rate: i128, speed: &Speed) -> Row {
    let ubrr = best(clock, rate, speed.samples);
    let divisor = speed.samples * (ubrr + 1);
    let total = divisor * rate;
    let error = error(clock, total);
    let real = Fraction(1000 * clock, divisor).rounded();
    let tenths = Fraction(1000 * error.0, error.1).rounded();
    let sign = ["-", "", "+"][(tenths.signum() + 1) as usize];
    let percent = format!("{sign}{}.{} %", tenths.abs() / 10, tenths.abs() % 10);
    let within = speed
        .limits
        .map(|limit| (total - clock).abs() * 1000 <= limit * clock);
    let mut text = format!(
        "{}{:>6}{:>6}{:>8}{:>8}{:>13}{:>12}",
        speed.name,
        speed.u2x,
        ubrr,
        format!("0x{:02x}", ubrr / 256),
        format!("0x{:02x}", ubrr % 256),
        format!("{}.{:03}", real / 1000, real % 1000),
        percent,
    );
    for yes in within {
        text += &format!("{:>6}", if yes { "yes" } else { "no" });
    }
    Row {
        text,
        within: within.iter().filter(|yes| **yes).count(),
        error,
    }
}

/// The last line: the speed within the limit at more frame lengths, else the one with the smaller error, else normal.
fn advice(normal: &Row, double: &Row) -> &'static str {
    let (n, d) = (normal.error.absolute(), double.error.absolute());
    if normal.within > double.within {
        "Take normal speed: it is within the limit at more frame lengths."
    } else if normal.within < double.within {
        "Take double speed: it is within the limit at more frame lengths."
    } else if normal.within == 0 {
        "Neither speed is within the limit at any frame length: take another rate or another clock."
    } else if n.less(d) {
        "Take normal speed: it is within the limit at as many frame lengths, and its error is smaller."
    } else if d.less(n) {
        "Take double speed: it is within the limit at as many frame lengths, and its error is smaller."
    } else {
        "Take normal speed: frame lengths within the limit and error are the same, and it has more samples a bit."
    }
}

/// How many last lines there are.
const ADVICES: usize = 6;

const LEGEND: &str =
    "D is data bits plus parity bit: 8 for 8N1, 9 for 8E1. yes: a receiver with this setting is within its recommended
limit of the rate error, against a sender that keeps the rate exactly.
";

fn table(clock: i128, rate: i128, last: &mut &'static str) -> String {
    let [normal, double] = [0, 1].map(|i| row(clock, rate, &SPEEDS[i]));
    *last = advice(&normal, &double);
    [
        &format!("clock {clock} Hz, rate {rate} baud"),
        "",
        "speed   U2X0  UBRR  UBRR0H  UBRR0L    real rate       error   D=5   D=6   D=7   D=8   D=9  D=10",
        &normal.text,
        &double.text,
        "",
        LEGEND,
        *last,
        "",
    ]
    .join("\n")
}

fn words(text: &[u8]) -> String {
    String::from_utf8_lossy(text).into_owned()
}

struct Program {
    path: String,
}

impl Program {
    /// What it writes on standard output and standard error.
    fn run(&self, arguments: &[OsString]) -> (String, String) {
        let output = Command::new(&self.path)
            .args(arguments)
            .output()
            .expect("the program runs");
        if !output.status.success() {
            fail(arguments, &format!("it ended with {}", output.status));
        }
        (words(&output.stdout), words(&output.stderr))
    }

    fn see(&self, arguments: &[OsString], standard_output: &str, standard_error: &str) {
        let (out, err) = self.run(arguments);
        if out != standard_output {
            fail(
                arguments,
                &format!("on standard output it wrote:\n{out}and not:\n{standard_output}"),
            );
        }
        if err != standard_error {
            fail(
                arguments,
                &format!("on standard error it wrote:\n{err}and not:\n{standard_error}"),
            );
        }
    }
}

fn fail(arguments: &[OsString], what: &str) -> ! {
    println!("baud table: baud {arguments:?}: {what}");
    exit(1);
}

/// Numbers from 1 to a limit, as often small as large.
struct Drawn {
    state: u64,
}

impl Drawn {
    fn next(&mut self) -> u64 {
        self.state ^= self.state << 13;
        self.state ^= self.state >> 7;
        self.state ^= self.state << 17;
        self.state
    }

    fn up_to(&mut self, limit: u64) -> i128 {
        let bits = 1 + self.next() % 25;
        (1 + self.next() % limit.min(1 << bits)) as i128
    }
}

fn pairs() -> Vec<(i128, i128)> {
    let mut drawn = Drawn {
        state: 0x9e37_79b9_7f4a_7c15,
    };
    let mut all: Vec<_> = CLOCKS
        .iter()
        .flat_map(|clock| RATES.iter().map(move |rate| (*clock, *rate)))
        .collect();
    all.extend(SPECIAL);
    all.extend((0..DRAWN).map(|_| (drawn.up_to(20_000_000), drawn.up_to(2_500_000))));
    all
}

/// Arguments in place of a clock or a rate that neither can be.
fn no_numbers() -> Vec<OsString> {
    let mut all: Vec<OsString> = [
        "",
        "0",
        "00",
        "-1",
        "+1",
        " 1",
        "1 ",
        "1.0",
        "1e6",
        "0x10",
        "1,000",
        "abc",
        "12a",
        "a12",
        "1/",
        "1:",
        "--help",
        "20000001",
        "4294967295",
        "4294967296",
        "4294967297",
        "18446744073709551617",
        "1234567890123456789012345678901234567890",
        "100000000000000000000000000000000",
    ]
    .map(OsString::from)
    .to_vec();
    all.push(OsStr::from_bytes(&[b'1', 0xb2]).to_owned());
    all
}

fn wrong_arguments() -> Vec<Vec<OsString>> {
    let list = |arguments: &[&str]| arguments.iter().map(OsString::from).collect::<Vec<_>>();
    let mut all = vec![
        vec![],
        list(&["16000000"]),
        list(&["16000000", "115200", "1"]),
        list(&["16000000", "115200", ""]),
        list(&["16000000", "2500001"]),
    ];
    for wrong in no_numbers() {
        all.push(vec![wrong.clone(), OsString::from("115200")]);
        all.push(vec![OsString::from("16000000"), wrong]);
    }
    all
}

fn main() {
    let arguments: Vec<String> = std::env::args().collect();
    let program = Program {
        path: arguments[1].clone(),
    };
    let usage = std::fs::read_to_string(&arguments[2]).expect("the usage line can be read");

    let pairs = pairs();
    let mut advices = BTreeMap::new();
    let mut last = "";
    for (clock, rate) in &pairs {
        let text = table(*clock, *rate, &mut last);
        *advices.entry(last).or_insert(0) += 1;
        program.see(
            &[clock.to_string().into(), rate.to_string().into()],
            &text,
            "",
        );
    }
    if advices.len() != ADVICES {
        println!("baud table: of {ADVICES} last lines only these were met: {advices:?}");
        exit(1);
    }
    program.see(
        &["0016000000".into(), "0115200".into()],
        &table(16_000_000, 115_200, &mut last),
        "",
    );

    let wrong = wrong_arguments();
    for list in &wrong {
        program.see(list, "", &usage);
    }
    println!(
        "baud table: {} clocks and rates as reckoned anew, with each of {ADVICES} last lines; {} wrong calls have the \
         usage line alone",
        pairs.len(),
        wrong.len(),
    );
}
