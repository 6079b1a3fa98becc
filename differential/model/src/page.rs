//! The program `page`: its output for its input (document 01, "Calls"; document 02, change 5; docs/DECISIONS.md 29).

use common::{Limits, Settings, Sizes};

use crate::file::{self, Number};

const MOST: usize = 32_768;

pub fn page(input: &[u8]) -> Vec<u8> {
    let answer = match settings(input) {
        Ok((settings, file)) => crate::answer(file, &settings, &Sizes::PAGE, &Limits::PAGE),
        Err(number) => Err(common::Refusal::early(number)),
    };
    match answer {
        Err(refusal) => format!("refused {}\n", refusal.number).into_bytes(),
        Ok(page) => {
            let (work, overflow, burden) = (page.counts.work, page.overflow, page.burden);
            let head = format!("page {work} {overflow:032x} {burden} {}\n", page.spans.len());
            [head.as_bytes(), &page.bytes, b"\n"].concat()
        }
    }
}

/// The settings, and what follows them.
fn settings(input: &[u8]) -> Result<(Settings, &[u8]), Number> {
    if input.len() > MOST {
        return Err(file::LIMIT);
    }
    let (map, mut rest) = input.split_first().ok_or(file::SHORT)?;
    if *map > 15 {
        return Err(file::FORM);
    }
    let mut field = |bit: u32| {
        if map >> bit & 1 == 0 {
            return Ok(0);
        }
        let (bytes, after) = rest.split_first_chunk::<4>().ok_or(file::SHORT)?;
        rest = after;
        match u32::from_le_bytes(*bytes) {
            0 => Err(file::FORM),
            value => Ok(value),
        }
    };
    let (policy, rule) = (u32::from(map >> 2 & 1), 1 + u32::from(map >> 3 & 1));
    let settings = Settings { width: field(0)?, newline_cost: field(1)?, policy, rule };
    Ok((settings, rest))
}
