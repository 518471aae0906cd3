//! The interface of the library as C has it, and its functions over slices; rl.h says of each struct and function what it is.

use std::fmt;

/// The limits of a rule file.
pub const SLOTS: usize = 32;
pub const VALUES: usize = 15;
pub const RULES: usize = 2_000;
pub const LITERALS: usize = 8;
pub const ASSIGNMENTS: usize = 4;

/// Bytes that any card, any slip of 32 changes, any fired record and any print fit in.
pub const CARD_BYTES: usize = 17;
pub const SLIP_BYTES: usize = 37;
pub const FIRED_BYTES: usize = 250;
pub const PRINT_BYTES: usize = 262_144;

/// Editors, and so records in a table of them.
pub const EDITORS: usize = 40;

/// Where a name stands in the rule text.
#[repr(C)]
#[derive(Clone, Copy, PartialEq, Eq, Debug, Default)]
pub struct Name {
    pub start: u32,
    pub size: u32,
}

impl Name {
    /// Where its bytes stand in the rule text.
    pub fn range(&self) -> std::ops::Range<usize> {
        let start = self.start as usize;
        start..start + self.size as usize
    }
}

/// A slot: its name, and the names of its values with the number used.
#[repr(C)]
#[derive(Clone, Copy, PartialEq, Eq, Debug, Default)]
pub struct Slot {
    pub name: Name,
    pub values: [Name; VALUES],
    pub count: u16,
}

/// A literal: `slot *= value` (becomes) or `slot |= value`, plain or under NOT; value 0 is NONE.
#[repr(C)]
#[derive(Clone, Copy, PartialEq, Eq, Debug, Default)]
pub struct Literal {
    pub becomes: bool,
    pub negated: bool,
    pub slot: u8,
    pub value: u8,
}

/// An assignment: `slot := value`; value 0 is NONE.
#[repr(C)]
#[derive(Clone, Copy, PartialEq, Eq, Debug, Default)]
pub struct Assignment {
    pub slot: u8,
    pub value: u8,
}

/// A rule: its trigger `slot *= value`, in which value 0 is NONE too, its literals and assignments with the numbers used, its stratum (rl.h says which).
#[repr(C)]
#[derive(Clone, Copy, PartialEq, Eq, Debug, Default)]
pub struct Rule {
    pub slot: u8,
    pub value: u8,
    pub literals: [Literal; LITERALS],
    pub tested: u8,
    pub assignments: [Assignment; ASSIGNMENTS],
    pub assigned: u8,
    pub stratum: u16,
}

/// The table: slots and rules with the numbers used.
#[repr(C)]
#[derive(Clone, Copy, PartialEq, Eq, Debug)]
pub struct Table {
    pub slots: [Slot; SLOTS],
    pub width: u16,
    pub rules: [Rule; RULES],
    pub count: u16,
}

impl Default for Table {
    /// The table without slots or rules.
    fn default() -> Table {
        Table { slots: [Slot::default(); SLOTS], width: 0, rules: [Rule::default(); RULES], count: 0 }
    }
}

impl Table {
    /// The table without slots or rules, off the stack.
    pub fn empty() -> Box<Table> {
        Box::default()
    }
}

// The sizes that C has too.
const _: () = assert!(std::mem::size_of::<Slot>() == 132 && std::mem::size_of::<Rule>() == 46);
const _: () = assert!(std::mem::size_of::<Table>() == 96_228 && std::mem::size_of::<RlRead>() == 96_248);

/// An unpacked card: a value for each slot, 0 for no value, and how many slots it counts.
#[repr(C)]
#[derive(Clone, Copy, PartialEq, Eq, Debug, Default)]
pub struct Card {
    pub values: [u8; SLOTS],
    pub count: usize,
}

/// A change of a slot to a value; value 0 is NONE, a withdrawal.
#[repr(C)]
#[derive(Clone, Copy, PartialEq, Eq, Debug, Default)]
pub struct Change {
    pub slot: u8,
    pub value: u8,
}

/// An unpacked slip: its changes, and how many it counts.
#[repr(C)]
#[derive(Clone, Copy, PartialEq, Eq, Debug, Default)]
pub struct Slip {
    pub changes: [Change; SLOTS],
    pub count: usize,
}

/// An editor's record: slips answered and slips refused.
#[repr(C)]
#[derive(Clone, Copy, PartialEq, Eq, Debug, Default)]
pub struct Tally {
    pub answered: u16,
    pub refused: u16,
}

/// A refusal by its number and its second number.
#[derive(Clone, Copy, PartialEq, Eq, Debug)]
pub struct Refusal {
    pub number: u8,
    pub second: usize,
}

impl Refusal {
    /// What the number says, in plain words.
    pub fn words(&self) -> &'static str {
        match self.number {
            10 => "the text has more than 262,144 bytes",
            11 => "a byte that can begin no token, or `*`, `|` or `:` without `=`",
            12 => "a token out of place, or the text ends inside a statement",
            13 => "a name over 24 bytes",
            14 => "a slot declared twice, or a value twice in one slot",
            15 => "one slot, value, rule, literal or assignment too many",
            16 => "a slot, or a value of this slot, that is not declared",
            17 => "a slot assigned twice in one rule",
            18 => "no strata exist: the rule is on a circle of dependence that passes through a NOT",
            20 => "the card is empty, or not of its own count's length",
            21 => "the card's count is not the number of slots in the rule file",
            22 => "the card has a value above the slot's last",
            23 => "a padding bit of the card is not zero",
            24 => "the slip is empty, or not of its own count's length",
            25 => "a change's slot is not below the slot count",
            26 => "a change's slot is not above that of the change before it",
            27 => "a change's value is above the slot's last",
            28 => "a padding bit of the slip is not zero",
            30 => "an output is too short",
            31 => "the table is not in order, or lacks the name asked for",
            32 => "a count in the editor's own record is 9,999 or above",
            33 => "the output is shorter than the print",
            34 => "the print would have more than 262,144 bytes",
            40 => "a slot has two or more values among the changes",
            41 => "a value of a slot would be both positive and negative",
            42 => "a value of a slot stays unknown",
            44 => "the editor number is not from 1 to 40, or there are not forty records",
            _ => "no refusal of the library has this number",
        }
    }
}

impl fmt::Display for Refusal {
    /// The two numbers as the program prints them, and what the first says.
    fn fmt(&self, to: &mut fmt::Formatter<'_>) -> fmt::Result {
        write!(to, "refused {} {}: {}", self.number, self.second, self.words())
    }
}

impl std::error::Error for Refusal {}

/// What the two numbers of a result say: what is given where the first is 0, else the refusal.
pub fn given<A>(number: u8, second: usize, given: A) -> Result<A, Refusal> {
    if number == 0 {
        Ok(given)
    } else {
        Err(Refusal { number, second })
    }
}

/// The result of a reading.
#[repr(C)]
#[derive(Debug)]
pub struct RlRead {
    pub number: u8,
    pub second: usize,
    pub table: Table,
}

/// The result of printing.
#[repr(C)]
#[derive(Debug)]
pub struct RlPrinted {
    pub number: u8,
    pub second: usize,
    pub length: usize,
}

/// Where a name stands, or 31.
#[repr(C)]
#[derive(Debug)]
pub struct RlName {
    pub number: u8,
    pub start: usize,
    pub size: usize,
}

/// The result of unpacking a card.
#[repr(C)]
#[derive(Debug)]
pub struct RlCard {
    pub number: u8,
    pub second: usize,
    pub card: Card,
}

/// The result of unpacking a slip.
#[repr(C)]
#[derive(Debug)]
pub struct RlSlip {
    pub number: u8,
    pub second: usize,
    pub slip: Slip,
}

/// The result of packing.
#[repr(C)]
#[derive(Debug)]
pub struct RlPacked {
    pub number: u8,
    pub second: usize,
    pub length: usize,
}

/// The result of a response.
#[repr(C)]
#[derive(Debug)]
pub struct RlResponse {
    pub number: u8,
    pub second: usize,
    pub length: usize,
    pub fired: usize,
}

extern "C" {
    pub fn rl_read(text: *const u8, length: usize) -> RlRead;
    pub fn rl_read_unlayered(text: *const u8, length: usize) -> RlRead;
    pub fn rl_print(text: *const u8, text_length: usize, out: *mut u8, out_length: usize) -> RlPrinted;
    pub fn rl_is_sound(table: Table) -> bool;
    fn rl_slot_name(text: *const u8, length: usize, table: Table, slot: usize) -> RlName;
    fn rl_value_name(text: *const u8, length: usize, table: Table, slot: usize, value: usize) -> RlName;
    fn rl_unpack_card(table: Table, bytes: *const u8, length: usize) -> RlCard;
    fn rl_unpack_slip(table: Table, bytes: *const u8, length: usize) -> RlSlip;
    fn rl_pack_card(table: Table, card: Card, out: *mut u8, length: usize) -> RlPacked;
    fn rl_pack_slip(table: Table, slip: Slip, out: *mut u8, length: usize) -> RlPacked;
    pub fn rl_respond(
        table: Table,
        records: *mut Tally,
        records_length: usize,
        editor: usize,
        card: *const u8,
        card_length: usize,
        slip: *const u8,
        slip_length: usize,
        new_card: *mut u8,
        new_card_length: usize,
        changes: *mut u8,
        changes_length: usize,
        fired: *mut u8,
        fired_length: usize,
    ) -> RlResponse;
    pub fn rl_respond_by_marks(
        table: Table,
        records: *mut Tally,
        records_length: usize,
        editor: usize,
        card: *const u8,
        card_length: usize,
        slip: *const u8,
        slip_length: usize,
        new_card: *mut u8,
        new_card_length: usize,
        changes: *mut u8,
        changes_length: usize,
        fired: *mut u8,
        fired_length: usize,
    ) -> RlResponse;
}

// The functions over slices. Each is made where it is called, so that a program which calls none needs no library.

/// Reads a rule text.
#[inline]
pub fn read(text: &[u8]) -> RlRead {
    unsafe { rl_read(text.as_ptr(), text.len()) }
}

/// Reads a rule text without test 18, for the response by marks.
#[inline]
pub fn read_unlayered(text: &[u8]) -> RlRead {
    unsafe { rl_read_unlayered(text.as_ptr(), text.len()) }
}

/// Prints a rule text in the house style into an output.
#[inline]
pub fn print(text: &[u8], out: &mut [u8]) -> RlPrinted {
    unsafe { rl_print(text.as_ptr(), text.len(), out.as_mut_ptr(), out.len()) }
}

/// Whether a table is in order.
#[inline]
pub fn is_sound(table: &Table) -> bool {
    unsafe { rl_is_sound(*table) }
}

/// Where a slot's name stands in the text.
#[inline]
pub fn slot_name(text: &[u8], table: &Table, slot: usize) -> RlName {
    unsafe { rl_slot_name(text.as_ptr(), text.len(), *table, slot) }
}

/// Where the name of a slot's value stands in the text, values counted from 1.
#[inline]
pub fn value_name(text: &[u8], table: &Table, slot: usize, value: usize) -> RlName {
    unsafe { rl_value_name(text.as_ptr(), text.len(), *table, slot, value) }
}

/// Unpacks bytes as a card.
#[inline]
pub fn unpack_card(table: &Table, bytes: &[u8]) -> RlCard {
    unsafe { rl_unpack_card(*table, bytes.as_ptr(), bytes.len()) }
}

/// Unpacks bytes as a slip.
#[inline]
pub fn unpack_slip(table: &Table, bytes: &[u8]) -> RlSlip {
    unsafe { rl_unpack_slip(*table, bytes.as_ptr(), bytes.len()) }
}

/// Packs a card into an output.
#[inline]
pub fn pack_card(table: &Table, card: Card, out: &mut [u8]) -> RlPacked {
    unsafe { rl_pack_card(*table, card, out.as_mut_ptr(), out.len()) }
}

/// Packs a slip into an output.
#[inline]
pub fn pack_slip(table: &Table, slip: Slip, out: &mut [u8]) -> RlPacked {
    unsafe { rl_pack_slip(*table, slip, out.as_mut_ptr(), out.len()) }
}

/// A function of the library that responds: by strata, or by marks.
pub type Responds = unsafe extern "C" fn(
    Table,
    *mut Tally,
    usize,
    usize,
    *const u8,
    usize,
    *const u8,
    usize,
    *mut u8,
    usize,
    *mut u8,
    usize,
    *mut u8,
    usize,
) -> RlResponse;

/// The packed card and the packed slip as the first two slices, then the three outputs.
#[inline]
pub fn respond_with(
    responds: Responds,
    table: &Table,
    records: &mut [Tally],
    editor: usize,
    given: [&[u8]; 2],
    outputs: [&mut [u8]; 3],
) -> RlResponse {
    let [card, slip] = given;
    let [new_card, changes, fired] = outputs;
    unsafe {
        responds(
            *table,
            records.as_mut_ptr(),
            records.len(),
            editor,
            card.as_ptr(),
            card.len(),
            slip.as_ptr(),
            slip.len(),
            new_card.as_mut_ptr(),
            new_card.len(),
            changes.as_mut_ptr(),
            changes.len(),
            fired.as_mut_ptr(),
            fired.len(),
        )
    }
}

/// Responds to an editor's packed card and packed slip.
#[inline]
pub fn respond(
    table: &Table,
    records: &mut [Tally],
    editor: usize,
    card: &[u8],
    slip: &[u8],
    new_card: &mut [u8],
    changes: &mut [u8],
    fired: &mut [u8],
) -> RlResponse {
    respond_with(rl_respond, table, records, editor, [card, slip], [new_card, changes, fired])
}

/// Responds to an editor's packed card and packed slip by marks.
#[inline]
pub fn respond_by_marks(
    table: &Table,
    records: &mut [Tally],
    editor: usize,
    card: &[u8],
    slip: &[u8],
    new_card: &mut [u8],
    changes: &mut [u8],
    fired: &mut [u8],
) -> RlResponse {
    respond_with(rl_respond_by_marks, table, records, editor, [card, slip], [new_card, changes, fired])
}
