//! Every map byte beside every kind byte, by reader and writer: which fields a kind may carry (document 02, change 4).

use common::{Node, Settings, Sizes, Tables, Text};

use crate::compare::{Call, Comparer, LIMITS};

/// Right pairs by document 01's kinds: 2 maps each for 0, 2 and 3, 4 for 1, 5 and 8, 8 for 4, 6, 7, 10 and 11; for 9 those 8 and 32 with a list.
const RIGHT: usize = 3 * 2 + 3 * 4 + 5 * 8 + (8 + 32);

pub fn run(comparer: &mut Comparer, progress: &mut dyn FnMut(&Comparer)) {
    let mut right = [0; 3];
    for kind in 0..=255 {
        for map in 0..=255 {
            right[0] += usize::from(file_right(comparer, &cut_file(map, kind), &[2]));
            right[1] += usize::from(file_right(comparer, &whole_file(map, kind), &[0, 10]));
            // A table has no map byte: its words say which bits stand, and none says bit 6 or 7.
            if map < 64 {
                right[2] += usize::from(table_right(comparer, &table(map, kind)));
            }
        }
        progress(comparer);
    }
    if right != [RIGHT; 3] {
        comparer.tally.differences += 1;
        println!("DIFFERENCE: right pairs {right:?} and not {RIGHT}");
    }
}

/// Whether the pair is right: then the file is refused by one of `usual` (0: accepted), and otherwise by 3.
fn file_right(comparer: &mut Comparer, file: &[u8], usual: &[u32]) -> bool {
    comparer.tally.pairs += 1;
    let settings = Settings { width: 80, newline_cost: 1, policy: 0, rule: 1 };
    let call = Call { file, settings, sizes: Sizes::PAGE, limits: LIMITS };
    crate::damaged_file(comparer, &call);
    let number = model::file::read(file).err().unwrap_or(0);
    if number != model::file::FORM && !usual.contains(&number) {
        comparer.difference("a pair of map and kind", &call, &number.to_string(), &format!("{usual:?} or 3"));
    }
    number != model::file::FORM
}

fn table_right(comparer: &mut Comparer, tables: &Tables) -> bool {
    comparer.tally.pairs += 1;
    crate::refused_alike(comparer, tables);
    model::file::encode(tables) != Err(model::file::FORM)
}

/// 1 node and 1 text, the node's map and kind, and no more.
fn cut_file(map: u8, kind: u8) -> Vec<u8> {
    vec![5, 1, 0, 0, 0, 1, 0, 0, 0, map, kind]
}

/// All that the map announces stands, and names something: before the node with the pair an Empty, and a Choice of that and that again. A list has three
/// entries, all the Empty: it is right where the Choice is one of the node's two, the Empty the other, and one is skipped.
fn whole_file(map: u8, kind: u8) -> Vec<u8> {
    let mut file = vec![0b11111];
    for count in [3u32, 2, 2, 2, 4] {
        file.extend(count.to_le_bytes());
    }
    file.extend([0, 0, 0, 9, map, kind]);
    // First, second, flat node, choice start, choice length, skipped.
    for (bit, value) in [1u32, 1, 0, 1, 3, 1].iter().enumerate() {
        if map >> bit & 1 == 1 {
            file.extend(value.to_le_bytes());
        }
    }
    file.extend([0; 4 * (2 + 4)]);
    file.extend([3, 1, 0, 0, 0, 1, 0, 0, 0, 32, 0]);
    file
}

/// One node whose words are 1 where the bit stands, and the space text.
fn table(map: u8, kind: u8) -> Tables {
    let word = |bit: u32| u32::from(map >> bit & 1);
    let node = Node {
        kind,
        first: word(0),
        second: word(1),
        flat: (word(2) == 1).then_some(1),
        choice_start: word(3),
        choice_length: word(4),
        skipped: word(5),
    };
    Tables { nodes: vec![node], texts: vec![Text { width: 1, bytes: vec![32] }], ..Tables::default() }
}
