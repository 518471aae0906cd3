//! A day in Rust: three editors send slips for the card of a folder, and all are counted in one lent table of records. It prints what each call comes to, then the three records.

mod folder;
mod rl;

use rl::{Refusal, Tally};

/// The editors of the day and their records at its start: editor 12's is full.
const EDITORS: [(usize, Tally); 3] = [
    (3, Tally { answered: 0, refused: 0 }),
    (12, Tally { answered: 9_999, refused: 58 }),
    (40, Tally { answered: 120, refused: 6 }),
];

/// The calls of the day in their order: who sends each, and the slip's bytes.
const CALLS: [(usize, &[u8]); 9] = [
    (3, &[0x04, 0x42]),       // last-attested to before-1800
    (12, &[0x04, 0x88]),      // region to isles: the record is full
    (40, &[0x04, 0x88]),      // region to isles
    (40, &[0x05, 0x68]),      // page to a value above its last
    (41, &[0x05, 0x66]),      // page to set: there is no editor 41
    (3, &[0x08, 0x44, 0x31]), // last-attested to 1800s, which makes the status rare, and status to current
    (12, &[0x05, 0x66]),      // page to set: the record is still full
    (3, &[0x05, 0x66]),       // page to set
    (40, &[0x00]),            // no change
];

fn main() {
    let folder = folder::named();
    let [text, mut card] = ["rules.txt", "card.bin"].map(|name| folder::load(&folder, name));
    let table = folder::given(rl::read(&text));

    let mut records = [Tally::default(); rl::EDITORS];
    for (editor, record) in EDITORS {
        records[editor - 1] = record;
    }
    for (editor, slip) in CALLS {
        let (mut new_card, mut changes, mut fired) = ([0; rl::CARD_BYTES], [0; rl::SLIP_BYTES], [0; rl::FIRED_BYTES]);
        match rl::respond(&table, &mut records, editor, &card, slip, &mut new_card, &mut changes, &mut fired) {
            Ok(answer) => {
                println!("editor {editor} rules fired {}", answer.fired);
                let length = card.len();
                card.copy_from_slice(&new_card[..length]);
            }
            Err(Refusal { number, second }) => println!("editor {editor} refused {number} {second}"),
        }
    }
    for (editor, _) in EDITORS {
        let Tally { answered, refused } = records[editor - 1];
        println!("tally {editor} {answered} {refused}");
    }
}
