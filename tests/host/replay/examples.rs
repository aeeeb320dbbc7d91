//! M-100's whole example, and texts with the answer that its words give them, worked out by hand.

use crate::calls::{compare, expect, Program};
use crate::random::Random;
use crate::tally::Tally;
use crate::Part;

pub const PART: Part = Part {
    name: "examples",
    run,
    rounds: 1,
};

/// 'Whole example, `>` for tab: `chime>1`, `W>193>24>0`, `R>192>32>0`, `C>17>16`.'
pub const EXAMPLE: &[u8] = b"chime\t1\nW\t193\t24\t0\nR\t192\t32\t0\nC\t17\t16\n";

/// What follows the first line, and number and line of the answer.
const AFTER_HEADER: [(&str, u8, usize); 45] = [
    ("", 0, 0),
    ("W\t193\t24\t0\nR\t192\t32\t0\nC\t17\t16\n", 0, 0),
    // A refused call, recorded as such, is no difference; an address or vector that is nowhere is answered 1.
    ("W\t194\t1\t2\n", 0, 0),
    ("W\t192\t1\t3\n", 0, 0),
    ("W\t255\t255\t1\nW\t0\t0\t1\nR\t255\t0\t1\n", 0, 0),
    ("A\t0\t8\nA\t1\t8\nA\t2\t1\nA\t255\t1\n", 0, 0),
    (
        "W\t193\t8\t0\nW\t198\t85\t0\nC\t17\t1\nW\t196\t1\t4\n",
        0,
        0,
    ),
    ("C\t0\t1\nC\t31\t1\n", 0, 0),
    ("W\t194\t1\t0\n", 10, 2),
    ("W\t193\t24\t1\n", 10, 2),
    ("W\t193\t24\t255\n", 10, 2),
    // The value is compared, the number too, and the value of a refused read is 0.
    ("R\t192\t33\t0\n", 10, 2),
    ("R\t192\t32\t1\n", 10, 2),
    ("R\t193\t0\t1\n", 10, 2),
    ("R\t0\t1\t1\n", 10, 2),
    ("R\t0\t0\t0\n", 10, 2),
    ("A\t0\t0\nA\t0\t0\n", 10, 2),
    ("A\t2\t8\n", 10, 2),
    ("C\t17\t16\nC\t17\t16\nA\t0\t8\nA\t0\t0\nA\t0\t0\n", 10, 5),
    // The whole file is looked at before any call.
    ("A\t0\t0\nA\t0\t0", 9, 3),
    ("A\t0\t0\nC\t17\t4294967295\n", 10, 2),
    ("C\t17\t4294967295\n\n", 9, 3),
    ("C\t17\t4294967296\n", 9, 2),
    ("C\t17\t0\n", 9, 2),
    ("C\t32\t1\n", 9, 2),
    ("C\t17\t16", 9, 2),
    ("C\t17\t16\nC\t17\t16", 9, 3),
    ("C\t17\t16\r\n", 9, 2),
    ("C\t17\t016\n", 9, 2),
    ("C\t017\t16\n", 9, 2),
    ("C\t17\t+16\n", 9, 2),
    ("C\t17\t\t16\n", 9, 2),
    ("C\t17\t16\t\n", 9, 2),
    ("C\t17\t\n", 9, 2),
    ("C\t17\n", 9, 2),
    ("c\t17\t16\n", 9, 2),
    ("C 17 16\n", 9, 2),
    ("C\t17\t10000000000\n", 9, 2),
    ("C\t17\t18446744073709551617\n", 9, 2),
    ("W\t256\t0\t1\n", 9, 2),
    ("W\t193\t256\t0\n", 9, 2),
    ("R\t192\t32\t256\n", 9, 2),
    ("A\t256\t1\n", 9, 2),
    ("\n", 9, 2),
    ("C\t17\t16\n\nC\t17\n", 9, 3),
];

/// The first line, and all of a text, that is malformed there.
const FIRST_LINES: [&[u8]; 20] = [
    b"",
    b"\n",
    b"chime\t1",
    b"chime\t1C\t17\t16\n",
    b"chime\t2\n",
    b"chime\t01\n",
    b"chime\t10\n",
    b"chime\t1\t\n",
    b"chime\t1\r\n",
    b"chime 1\n",
    b"chime\t\n",
    b"chime\n",
    b"Chime\t1\n",
    b"CHIME\t1\n",
    b" chime\t1\n",
    b"\nchime\t1\n",
    b"\xEF\xBB\xBFchime\t1\n",
    b"chime\t1\0\n",
    b"C\t17\t16\n",
    b"chime\t1 \nC\t17\t16\n",
];

fn run(program: Program, _: u64, random: &mut Random, tally: &mut Tally) -> Result<(), String> {
    let answer = compare(program, EXAMPLE, random, tally)?;
    expect(&answer, 0, 0, EXAMPLE)?;
    for (rest, number, line) in AFTER_HEADER {
        let text = [b"chime\t1\n", rest.as_bytes()].concat();
        let answer = compare(program, &text, random, tally)?;
        expect(&answer, number, line, &text)?;
    }
    for text in FIRST_LINES {
        let answer = compare(program, text, random, tally)?;
        expect(&answer, 9, 1, text)?;
    }
    Ok(())
}
