//! The house style of a text that was just read: each name one copy of its key, the limits tested at the end.

use crate::names::Names;
use crate::raw::PRINT_BYTES;
use crate::table::{Rule, Table};
use crate::text::{Key, NAME};
use crate::{refusal, Refusal};

/// Bytes that the print of every table fits in, and what is copied past a name: 32 slot lines of 424 and 2,000 rules of 770 at most.
const ROOM: usize = 1 << 21;

/// Where prints are made, kept from one to the next.
pub struct Printer {
    room: Box<[u8; ROOM]>,
}

impl Printer {
    /// A printer.
    pub fn new() -> Printer {
        Printer { room: vec![0; ROOM].into_boxed_slice().try_into().expect("as many bytes as there is room") }
    }

    /// Prints the table of the last reading into an output with the names that it left: the print's length, or 34, 33.
    pub fn print(&mut self, table: &Table, names: &Names, out: &mut [u8]) -> Result<usize, Refusal> {
        let mut pen = Pen { room: &mut self.room, at: 0, table, names };
        (0..table.width).for_each(|slot| pen.slot_line(slot as u8));
        table.rules[..table.count as usize].iter().for_each(|rule| pen.rule(rule));
        let length = pen.at;
        if length > PRINT_BYTES {
            return Err(refusal(34, 0));
        }
        let front = out.get_mut(..length).ok_or(refusal(33, 0))?;
        front.copy_from_slice(&self.room[..length]);
        Ok(length)
    }
}

impl Default for Printer {
    fn default() -> Printer {
        Printer::new()
    }
}

/// One print, so far as it is made.
struct Pen<'a> {
    room: &'a mut [u8; ROOM],
    at: usize,
    table: &'a Table,
    names: &'a Names,
}

impl Pen<'_> {
    /// Writes fixed bytes.
    #[inline]
    fn put<const N: usize>(&mut self, bytes: &[u8; N]) {
        self.room[self.at..self.at + N].copy_from_slice(bytes);
        self.at += N;
    }

    /// Writes a name: its whole key, of which so many bytes are used.
    #[inline]
    fn name(&mut self, key: &Key, size: u32) {
        let place = &mut self.room[self.at..self.at + NAME];
        for (to, from) in place.chunks_exact_mut(8).zip(key) {
            to.copy_from_slice(&from.to_le_bytes());
        }
        self.at += size as usize;
    }

    /// Writes a value's name, or NONE for 0.
    #[inline]
    fn value(&mut self, slot: u8, value: u8) {
        if value == 0 {
            return self.put(b"NONE");
        }
        let size = self.table.slots[slot as usize].values[value as usize - 1].size;
        self.name(self.names.value_key(slot, value), size);
    }

    /// Writes a pair with a mark between.
    #[inline]
    fn pair(&mut self, slot: u8, mark: &[u8; 4], value: u8) {
        self.name(self.names.slot_key(slot), self.table.slots[slot as usize].name.size);
        self.put(mark);
        self.value(slot, value);
    }

    /// Writes a slot line.
    fn slot_line(&mut self, slot: u8) {
        let place = &self.table.slots[slot as usize];
        self.put(b"SLOT ");
        self.name(self.names.slot_key(slot), place.name.size);
        self.put(b" { ");
        self.value(slot, 1);
        for value in 2..=place.count as u8 {
            self.put(b", ");
            self.value(slot, value);
        }
        self.put(b" };\n");
    }

    /// Writes a rule.
    fn rule(&mut self, rule: &Rule) {
        self.put(b"WHEN ");
        self.pair(rule.slot, b" *= ", rule.value);
        self.put(b" IF ");
        if rule.tested == 0 {
            self.put(b"TRUE");
        }
        for (at, literal) in rule.literals().iter().enumerate() {
            if at > 0 {
                self.put(b" AND ");
            }
            if literal.negated {
                self.put(b"NOT ");
            }
            self.pair(literal.slot, if literal.becomes { b" *= " } else { b" |= " }, literal.value);
        }
        self.put(b" THEN ");
        self.assignments(rule);
        self.put(b";\n");
    }

    /// Writes the assignments of a rule.
    #[inline]
    fn assignments(&mut self, rule: &Rule) {
        let listed = rule.assigned > 1;
        if listed {
            self.put(b"{ ");
        }
        for (at, assignment) in rule.assignments().iter().enumerate() {
            if at > 0 {
                self.put(b", ");
            }
            self.pair(assignment.slot, b" := ", assignment.value);
        }
        if listed {
            self.put(b" }");
        }
    }
}
