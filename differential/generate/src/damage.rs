//! Damaged files, and tables that a writer must refuse.

use common::{Node, Tables, Text};

use crate::files::WIDE;
use crate::Rng;

/// Strings that are no text: overlong, surrogates, past 10FFFF, cut short, begun in the middle, with a byte 10 inside.
const ILL: [&[u8]; 20] = [
    b"\x80",
    b"\xbf",
    b"\xc0\x80",
    b"\xc1\xbf",
    b"\xc2",
    b"\xc2\x41",
    b"\xc2\xc2\x80",
    b"\xe0\x9f\xbf",
    b"\xe2\x82",
    b"\xe2\x0a",
    b"\xe2\x82\x41",
    b"\xed\xa0\x80",
    b"\xed\xbf\xbf",
    b"\xf0\x8f\xbf\xbf",
    b"\xf0\x9f\x98",
    b"\xf4\x90\x80\x80",
    b"\xf5\x80\x80\x80",
    b"\xf8\x88\x80\x80\x80",
    b"\xfe",
    b"\xff",
];

/// A few bytes or words of the file altered, cut off or put in.
pub fn file(rng: &mut Rng, file: &[u8]) -> Vec<u8> {
    let mut bytes = file.to_vec();
    for _ in 0..rng.within(1, 2) {
        let at = rng.index(bytes.len().max(1));
        match rng.below(8) {
            0 => bytes.truncate(at),
            1 => bytes.push(rng.below(256) as u8),
            2 if !bytes.is_empty() => {
                bytes.remove(at);
            }
            3 => bytes.insert(at, rng.below(256) as u8),
            4 if !bytes.is_empty() => bytes[at] ^= 1 << rng.below(8),
            5 if !bytes.is_empty() => bytes[at] = rng.pick(&[0, 1, 2, 9, 10, 11, 12, 16, 32, 64, 128, 255]),
            6 if at + 4 <= bytes.len() => {
                let value = match rng.below(3) {
                    0 => rng.extreme(),
                    1 => rng.pick(&[0, 1, 2, 4_096, 4_097, 16_384, 16_385, 65_536, 65_537]),
                    _ => rng.within(0, 12),
                };
                bytes[at..at + 4].copy_from_slice(&value.to_le_bytes());
            }
            _ if !bytes.is_empty() => bytes[at] = rng.below(13) as u8,
            _ => {}
        }
    }
    bytes
}

/// The tables with a text, the space text too, that is most often no UTF-8 any more.
pub fn texts(rng: &mut Rng, tables: &Tables) -> Tables {
    let mut out = tables.clone();
    let at = rng.index(out.texts.len());
    let mut wide = [0; 4];
    let wide = rng.pick(&WIDE).encode_utf8(&mut wide).as_bytes();
    let bytes = &mut out.texts[at].bytes;
    let place = rng.index(bytes.len() + 1);
    match rng.below(4) {
        // A character, of which one byte is another.
        0 => {
            bytes.splice(place..place, wide.iter().copied());
            bytes[place + rng.index(wide.len())] = rng.below(256) as u8;
        }
        // A character cut in two: its end stands in the next text.
        1 => {
            let (left, right) = wide.split_at(1 + rng.index(wide.len() - 1));
            bytes.extend(left);
            match out.texts.get_mut(at + 1) {
                Some(next) => {
                    next.bytes.splice(0..0, right.iter().copied());
                }
                None => out.texts.push(Text { width: 1, bytes: right.to_vec() }),
            }
        }
        // A character cut short.
        2 => {
            bytes.splice(place..place, wide[..wide.len() - 1].iter().copied());
        }
        _ => {
            bytes.splice(place..place, rng.pick(&ILL).iter().copied());
        }
    }
    out
}

/// The tables with a few numbers altered: what the form still carries, and the rules 6 to 10 may refuse.
pub fn tables(rng: &mut Rng, tables: &Tables) -> Tables {
    let mut out = tables.clone();
    for _ in 0..rng.within(1, 2) {
        let count = out.nodes.len() as u32;
        let number = match rng.below(4) {
            0 => count,
            1 => rng.extreme(),
            _ => rng.within(0, count),
        };
        let index = rng.index(out.nodes.len());
        let node: &mut Node = &mut out.nodes[index];
        match rng.below(12) {
            0 => node.first = number,
            1 => node.second = number,
            2 => node.flat = Some(number),
            3 => node.kind = rng.below(13) as u8,
            4 => node.choice_start = number,
            5 => node.choice_length = rng.within(0, 4),
            6 => node.skipped = rng.within(0, 4),
            7 if !out.edges.is_empty() => {
                let at = rng.index(out.edges.len());
                out.edges[at] = number;
            }
            8 if !out.choice_edges.is_empty() => {
                let at = rng.index(out.choice_edges.len());
                out.choice_edges[at] = number;
            }
            9 => {
                let at = rng.index(out.texts.len());
                out.texts[at].bytes.push(rng.pick(&[10, 32, 65]));
            }
            10 => out.root = number,
            11 => out.space = rng.within(0, out.texts.len() as u32),
            _ => out.annotations = rng.within(0, 2),
        }
    }
    out
}
