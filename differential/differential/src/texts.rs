//! All texts of up to 2 bytes, and of 3 and 4 over the bytes where RFC 3629's grammar changes, by reader and writer (document 02, change 1).

use common::{kind, Node, Settings, Sizes, Tables, Text};

use crate::compare::{Call, Comparer, LIMITS};

/// The first and the last byte of every range that RFC 3629, section 4, names, their neighbours outside, byte 10 with its neighbours, FE and FF.
const EDGES: [u8; 28] = [
    0x00, 0x09, 0x0a, 0x0b, 0x7f, 0x80, 0x8f, 0x90, 0x9f, 0xa0, 0xbf, 0xc0, 0xc1, 0xc2, 0xdf, 0xe0, 0xe1, 0xec, 0xed,
    0xee, 0xef, 0xf0, 0xf1, 0xf3, 0xf4, 0xf5, 0xfe, 0xff,
];

/// Characters of one, two, three and four bytes among these, by the grammar's rows; byte 10 is none here.
const ONE: usize = 4;
const TWO: usize = 2 * 6;
const THREE: usize = (2 + 2 * 6 + 4 + 2 * 6) * 6;
const FOUR: usize = (4 + 2 * 6 + 2) * 6 * 6;

/// So many strings are texts, by length.
const RIGHT: [usize; 5] = [
    1,
    127,
    127 * 127 + 30 * 64,
    ONE * ONE * ONE + 2 * ONE * TWO + THREE,
    ONE * ONE * ONE * ONE + 3 * ONE * ONE * TWO + TWO * TWO + 2 * ONE * THREE + FOUR,
];

pub fn run(comparer: &mut Comparer, progress: &mut dyn FnMut(&Comparer)) {
    let every: Vec<u8> = (0..=255).collect();
    let mut right = [0; 5];
    for (length, right) in right.iter_mut().enumerate() {
        let bytes = if length < 3 { &every[..] } else { &EDGES };
        strings(bytes, length, &mut Vec::new(), &mut |text| {
            *right += usize::from(is_text(comparer, text));
            progress(comparer);
        });
    }
    if right != RIGHT {
        comparer.tally.differences += 1;
        println!("DIFFERENCE: texts {right:?} and not {RIGHT:?}");
    }
}

fn strings(bytes: &[u8], left: usize, so_far: &mut Vec<u8>, each: &mut dyn FnMut(&[u8])) {
    if left == 0 {
        each(so_far);
        return;
    }
    for byte in bytes {
        so_far.push(*byte);
        strings(bytes, left - 1, so_far, each);
        so_far.pop();
    }
}

/// Whether a file of one Text of these bytes is accepted, and not refused by 7.
fn is_text(comparer: &mut Comparer, bytes: &[u8]) -> bool {
    let texts = vec![Text { width: 1, bytes: vec![32] }, Text { width: bytes.len() as u32, bytes: bytes.to_vec() }];
    let tables = Tables { nodes: vec![Node::of(kind::TEXT, 1, 0)], texts, ..Tables::default() };
    crate::refused_alike(comparer, &tables);
    let file = model::file::bytes(&tables);
    let settings = Settings { width: 80, newline_cost: 1, policy: 0, rule: 1 };
    let call = Call { file: &file, settings, sizes: Sizes::PAGE, limits: LIMITS };
    crate::damaged_file(comparer, &call);
    let number = model::file::read(&file).err().unwrap_or(0);
    if !matches!(number, 0 | model::file::TEXT) {
        comparer.difference("a text", &call, &number.to_string(), "0 or 7");
    }
    number == 0
}
