//! Lists and texts with the text that the words of M-109 give them, worked out by hand.

use crate::calls::{expect, Call, Calls};
use crate::random::Random;
use crate::tally::Tally;
use crate::Part;

pub const PART: Part = Part {
    name: "examples",
    run,
    rounds: 1,
};

/// M-100's 'Whole example', as a text and as a list.
pub const EXAMPLE: &str = "chime\t1\nW\t193\t24\t0\nR\t192\t32\t0\nC\t17\t16\n";
pub const EXAMPLE_LIST: &[u8; 24] = b"W\0\xC1\0\x18\0\0\0R\0\xC0\0\x20\0\0\0C\x11\0\0\x10\0\0\0";

/// Lists, and what follows the first line in their text; none for 9.
#[rustfmt::skip] // a line each
const WRITES: [(&[u8], Option<&str>); 50] = [
    (b"", Some("")),
    (EXAMPLE_LIST, Some("W\t193\t24\t0\nR\t192\t32\t0\nC\t17\t16\n")),
    // Each letter, with the smallest and the largest numbers.
    (b"W\0\0\0\0\0\0\0", Some("W\t0\t0\t0\n")),
    (b"W\xFF\xFF\0\xFF\0\0\0", Some("W\t255\t255\t255\n")),
    (b"W\x01\x02\0\x03\0\0\0", Some("W\t2\t3\t1\n")),
    (b"R\0\0\0\0\0\0\0", Some("R\t0\t0\t0\n")),
    (b"R\xFF\xFF\0\xFF\0\0\0", Some("R\t255\t255\t255\n")),
    (b"R\x01\x02\0\x03\0\0\0", Some("R\t2\t3\t1\n")),
    (b"A\0\0\0\0\0\0\0", Some("A\t0\t0\n")),
    (b"A\xFF\xFF\0\0\0\0\0", Some("A\t255\t255\n")),
    (b"A\x01\x02\0\0\0\0\0", Some("A\t2\t1\n")),
    (b"C\0\0\0\x01\0\0\0", Some("C\t0\t1\n")),
    (b"C\x1F\0\0\xFF\xFF\xFF\xFF", Some("C\t31\t4294967295\n")),
    // Numbers with one digit more than the one before, and a zero in each place.
    (b"A\x09\x0A\0\0\0\0\0", Some("A\t10\t9\n")),
    (b"A\x63\x64\0\0\0\0\0", Some("A\t100\t99\n")),
    (b"A\xC8\xC9\0\0\0\0\0", Some("A\t201\t200\n")),
    (b"C\x09\0\0\xFF\0\0\0", Some("C\t9\t255\n")),
    (b"C\x0A\0\0\0\x01\0\0", Some("C\t10\t256\n")),
    (b"C\x11\0\0\0\0\x01\0", Some("C\t17\t65536\n")),
    (b"C\x11\0\0\0\0\0\x01", Some("C\t17\t16777216\n")),
    (b"C\x11\0\0\x04\x03\x02\x01", Some("C\t17\t16909060\n")),
    (b"C\x11\0\0\xFF\xFF\xFF\x7F", Some("C\t17\t2147483647\n")),
    (b"C\x11\0\0\0\0\0\x80", Some("C\t17\t2147483648\n")),
    (b"C\x11\0\0\xFF\xC9\x9A\x3B", Some("C\t17\t999999999\n")),
    (b"C\x11\0\0\0\xCA\x9A\x3B", Some("C\t17\t1000000000\n")),
    // An order is kept, and what is equal is not joined: that is the shrink's.
    (b"C\x11\0\0\x10\0\0\0C\x11\0\0\x10\0\0\0", Some("C\t17\t16\nC\t17\t16\n")),
    (b"A\0\0\0\0\0\0\0W\0\0\0\0\0\0\0A\0\0\0\0\0\0\0", Some("A\t0\t0\nW\t0\t0\t0\nA\t0\t0\n")),
    // One past a range.
    (b"W\0\0\x01\0\0\0\0", None),
    (b"W\0\0\0\0\x01\0\0", None),
    (b"W\0\0\0\0\0\x01\0", None),
    (b"W\0\0\0\0\0\0\x01", None),
    (b"R\0\0\x01\0\0\0\0", None),
    (b"R\0\0\0\0\x01\0\0", None),
    (b"A\0\0\x01\0\0\0\0", None),
    (b"A\0\0\0\x01\0\0\0", None),
    (b"A\0\0\0\0\0\0\x80", None),
    (b"C\x20\0\0\x01\0\0\0", None),
    (b"C\xFF\0\0\x01\0\0\0", None),
    (b"C\0\x01\0\x01\0\0\0", None),
    (b"C\0\0\x01\x01\0\0\0", None),
    (b"C\0\0\0\0\0\0\0", None),
    (b"\0\0\0\0\0\0\0\0", None),
    (b"w\0\0\0\0\0\0\0", None),
    (b"c\0\0\0\x01\0\0\0", None),
    // The first or the last item, or a part of one.
    (b"X\0\0\0\0\0\0\0A\0\0\0\0\0\0\0", None),
    (b"A\0\0\0\0\0\0\0X\0\0\0\0\0\0\0", None),
    (b"A", None),
    (b"A\0\0\0\0\0\0", None),
    (b"A\0\0\0\0\0\0\0A", None),
    (b"A\0\0\0\0\0\0\0A\0\0\0\0\0\0", None),
];

/// What follows the first line, and what follows it in the shrunk text.
#[rustfmt::skip] // a line each
const SHRINKS: [(&str, &str); 46] = [
    ("", ""),
    ("W\t193\t24\t0\nR\t192\t32\t0\nC\t17\t16\n", "W\t193\t24\t0\nR\t192\t32\t0\nC\t17\t16\n"),
    // Joined.
    ("C\t17\t16\nC\t17\t16\n", "C\t17\t32\n"),
    ("C\t17\t1\nC\t17\t1\nC\t17\t1\n", "C\t17\t3\n"),
    ("C\t0\t9\nC\t0\t1\n", "C\t0\t10\n"),
    ("C\t31\t99\nC\t31\t1\n", "C\t31\t100\n"),
    ("C\t17\t1\nC\t17\t999999999\n", "C\t17\t1000000000\n"),
    ("C\t17\t5\nC\t17\t6\nW\t0\t0\t1\nC\t17\t7\nC\t17\t8\n", "C\t17\t11\nW\t0\t0\t1\nC\t17\t15\n"),
    ("C\t1\t2\nC\t1\t3\nC\t2\t4\nC\t2\t5\n", "C\t1\t5\nC\t2\t9\n"),
    ("A\t0\t8\nC\t17\t1\nC\t17\t1\nA\t0\t8\n", "A\t0\t8\nC\t17\t2\nA\t0\t8\n"),
    // Not across a call.
    ("C\t17\t1\nW\t0\t0\t1\nC\t17\t1\n", "C\t17\t1\nW\t0\t0\t1\nC\t17\t1\n"),
    ("C\t17\t1\nR\t0\t0\t1\nC\t17\t1\n", "C\t17\t1\nR\t0\t0\t1\nC\t17\t1\n"),
    ("C\t17\t1\nA\t0\t8\nC\t17\t1\n", "C\t17\t1\nA\t0\t8\nC\t17\t1\n"),
    ("C\t17\t4294967295\nA\t0\t8\nC\t17\t4294967295\n", "C\t17\t4294967295\nA\t0\t8\nC\t17\t4294967295\n"),
    // Not over other levels.
    ("C\t17\t1\nC\t16\t1\n", "C\t17\t1\nC\t16\t1\n"),
    ("C\t17\t1\nC\t16\t1\nC\t17\t1\n", "C\t17\t1\nC\t16\t1\nC\t17\t1\n"),
    ("C\t1\t7\nC\t11\t7\nC\t1\t7\nC\t10\t7\n", "C\t1\t7\nC\t11\t7\nC\t1\t7\nC\t10\t7\n"),
    ("C\t0\t1\nC\t31\t1\nC\t0\t1\n", "C\t0\t1\nC\t31\t1\nC\t0\t1\n"),
    // Calls alone stay, also equal ones.
    ("A\t0\t8\nA\t0\t8\n", "A\t0\t8\nA\t0\t8\n"),
    ("R\t198\t0\t0\nR\t198\t0\t0\nR\t198\t0\t0\n", "R\t198\t0\t0\nR\t198\t0\t0\nR\t198\t0\t0\n"),
    ("W\t193\t24\t0\nR\t192\t32\t0\nA\t1\t8\n", "W\t193\t24\t0\nR\t192\t32\t0\nA\t1\t8\n"),
    ("W\t255\t255\t255\nW\t0\t0\t0\n", "W\t255\t255\t255\nW\t0\t0\t0\n"),
    // A full line exactly, and one more.
    ("C\t17\t4294967295\n", "C\t17\t4294967295\n"),
    ("C\t17\t4294967294\nC\t17\t1\n", "C\t17\t4294967295\n"),
    ("C\t17\t1\nC\t17\t4294967294\n", "C\t17\t4294967295\n"),
    ("C\t17\t4294967293\nC\t17\t1\n", "C\t17\t4294967294\n"),
    ("C\t17\t2147483647\nC\t17\t2147483648\n", "C\t17\t4294967295\n"),
    ("C\t17\t2147483648\nC\t17\t2147483648\n", "C\t17\t4294967295\nC\t17\t1\n"),
    ("C\t17\t4294967295\nC\t17\t1\n", "C\t17\t4294967295\nC\t17\t1\n"),
    ("C\t17\t1\nC\t17\t4294967295\n", "C\t17\t4294967295\nC\t17\t1\n"),
    ("C\t17\t4294967294\nC\t17\t2\n", "C\t17\t4294967295\nC\t17\t1\n"),
    ("C\t17\t4294967294\nC\t17\t4294967294\n", "C\t17\t4294967295\nC\t17\t4294967293\n"),
    // Two full lines exactly, one fewer, and one more.
    ("C\t17\t4294967295\nC\t17\t4294967295\n", "C\t17\t4294967295\nC\t17\t4294967295\n"),
    ("C\t0\t4294967294\nC\t0\t4294967295\n", "C\t0\t4294967295\nC\t0\t4294967294\n"),
    ("C\t0\t4294967294\nC\t0\t2\nC\t0\t4294967294\n", "C\t0\t4294967295\nC\t0\t4294967295\n"),
    ("C\t0\t1\nC\t0\t4294967295\nC\t0\t4294967295\n", "C\t0\t4294967295\nC\t0\t4294967295\nC\t0\t1\n"),
    ("C\t0\t4294967295\nC\t0\t4294967295\nC\t0\t1\n", "C\t0\t4294967295\nC\t0\t4294967295\nC\t0\t1\n"),
    // Where sums of 32 bits, or of 31, turn over.
    ("C\t17\t4294967295\nC\t17\t17\n", "C\t17\t4294967295\nC\t17\t17\n"),
    ("C\t17\t4294967295\nC\t17\t1\nC\t17\t4294967295\n", "C\t17\t4294967295\nC\t17\t4294967295\nC\t17\t1\n"),
    ("C\t17\t2147483648\nC\t17\t1\n", "C\t17\t2147483649\n"),
    ("C\t17\t2147483647\nC\t17\t1\n", "C\t17\t2147483648\n"),
    // A full line, and then other levels or a call.
    ("C\t17\t4294967295\nC\t17\t3\nC\t16\t4\nC\t16\t5\n", "C\t17\t4294967295\nC\t17\t3\nC\t16\t9\n"),
    ("C\t17\t4294967295\nC\t17\t3\nA\t0\t8\nC\t17\t4\n", "C\t17\t4294967295\nC\t17\t3\nA\t0\t8\nC\t17\t4\n"),
    ("C\t17\t4294967295\nC\t16\t4294967295\n", "C\t17\t4294967295\nC\t16\t4294967295\n"),
    // Five lines of 1,717,986,918 are two full ones exactly; six have that number over.
    ("C\t5\t1717986918\nC\t5\t1717986918\nC\t5\t1717986918\nC\t5\t1717986918\nC\t5\t1717986918\n",
        "C\t5\t4294967295\nC\t5\t4294967295\n"),
    ("C\t5\t1717986918\nC\t5\t1717986918\nC\t5\t1717986918\nC\t5\t1717986918\nC\t5\t1717986918\nC\t5\t1717986918\n",
        "C\t5\t4294967295\nC\t5\t4294967295\nC\t5\t1717986918\n"),
];

/// Whole texts that are malformed.
#[rustfmt::skip] // a line each
const MALFORMED: [&str; 29] = [
    "", "\n", "chime", "chime\t1", "chime\t2\n", "chime\t01\n", "chime\t1\r\n", "Chime\t1\n", "C\t17\t16\n",
    "chime\t1\n\n",
    "chime\t1\nC\t17\t16",
    "chime\t1\nC\t17\t16\nC\t17\t16",
    "chime\t1\nC\t17\t0\n",
    "chime\t1\nC\t17\t4294967296\n",
    "chime\t1\nC\t17\t016\n",
    "chime\t1\nC\t17\t16\nC\t17\t0\n",
    "chime\t1\nC\t32\t16\n",
    "chime\t1\nC\t17\t16\t0\n",
    "chime\t1\nC\t17\n",
    "chime\t1\nW\t193\t24\n",
    "chime\t1\nW\t193\t24\t256\n",
    "chime\t1\nR\t192\t032\t0\n",
    "chime\t1\nR\t192\t32\t0\t0\n",
    "chime\t1\nA\t256\t1\n",
    "chime\t1\nA\t1\n",
    "chime\t1\nX\t1\t1\n",
    "chime\t1\nC\t17\t16\nchime\t1\n",
    "chime\t1\nC\t17\t16\n\nC\t17\t16\n",
    "chime\t1\nC\t17\t16\nC\t17\t16\n ",
];

fn run(calls: &Calls, _: u64, random: &mut Random, tally: &mut Tally) -> Result<(), String> {
    let mut is = |call, input: &[u8], due: Option<&[u8]>| {
        let text = calls.compare(call, input, random, tally)?;
        expect(call, input, &text, due)
    };
    is(Call::Write, EXAMPLE_LIST, Some(EXAMPLE.as_bytes()))?;
    is(Call::Shrink, EXAMPLE.as_bytes(), Some(EXAMPLE.as_bytes()))?;
    for (list, rest) in WRITES {
        let text = rest.map(|rest| format!("chime\t1\n{rest}"));
        is(Call::Write, list, text.as_ref().map(String::as_bytes))?;
    }
    for (rest, shrunk) in SHRINKS {
        let (text, shrunk) = (format!("chime\t1\n{rest}"), format!("chime\t1\n{shrunk}"));
        is(Call::Shrink, text.as_bytes(), Some(shrunk.as_bytes()))?;
        // A text already shrunk.
        is(Call::Shrink, shrunk.as_bytes(), Some(shrunk.as_bytes()))?;
    }
    for text in MALFORMED {
        is(Call::Shrink, text.as_bytes(), None)?;
    }
    Ok(())
}
