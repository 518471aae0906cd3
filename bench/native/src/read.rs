//! Reading of rule text in one pass, each token looked at once.

use crate::names::Names;
use crate::strata::{self, Graph};
use crate::table::{Assignment, Literal, Name, Rule, Table, ASSIGNMENTS, LITERALS, RULES, SLOTS, VALUES};
use crate::text::{Kind, Scanner, NAME};
use crate::{refusal, Refusal};

/// The most bytes of a rule text.
pub const TEXT: usize = 262_144;

/// What a reading needs beside the table, kept from one to the next.
pub struct Workspace {
    pub names: Names,
    graph: Graph,
}

impl Workspace {
    /// A workspace.
    pub fn new() -> Box<Workspace> {
        Box::new(Workspace { names: Names::new(), graph: Graph::new() })
    }
}

/// Reads a text into a table that is empty or from another reading, with stratum 0 throughout, or gives a refusal 10 to 17 and leaves the table without slots or rules.
pub fn read_unlayered(text: &[u8], table: &mut Table, workspace: &mut Workspace) -> Result<(), Refusal> {
    table.clear();
    if text.len() > TEXT {
        return Err(refusal(10, 0));
    }
    workspace.names.clear();
    let mut reader = Reader { scan: Scanner::new(text), table, names: &mut workspace.names };
    let read = reader.file().map_err(|number| refusal(number, reader.table.count as usize));
    if read.is_err() {
        table.clear();
    }
    read
}

/// Reads a text into a table that is empty or from another reading, or gives a refusal 10 to 18 and leaves the table without slots or rules.
pub fn read(text: &[u8], table: &mut Table, workspace: &mut Workspace) -> Result<(), Refusal> {
    read_unlayered(text, table, workspace)?;
    let layered = strata::layer(table, &mut workspace.graph).map_err(|rule| refusal(18, rule));
    if layered.is_err() {
        table.clear();
    }
    layered
}

/// The reading of one text.
struct Reader<'a> {
    scan: Scanner<'a>,
    table: &'a mut Table,
    names: &'a mut Names,
}

/// The refusal of a token out of place.
#[inline]
fn fault(kind: Kind) -> u8 {
    if kind == Kind::Bad {
        11
    } else {
        12
    }
}

impl Reader<'_> {
    /// Slot lines, then rules, then the end.
    fn file(&mut self) -> Result<(), u8> {
        let mut kind = self.scan.token();
        while kind == Kind::Slot {
            self.slot_line()?;
            kind = self.scan.token();
        }
        while kind == Kind::When {
            self.rule()?;
            kind = self.scan.token();
        }
        if kind == Kind::End {
            Ok(())
        } else {
            Err(fault(kind))
        }
    }

    /// A token of a kind.
    #[inline]
    fn expect(&mut self, wanted: Kind) -> Result<(), u8> {
        let kind = self.scan.token();
        if kind == wanted {
            Ok(())
        } else {
            Err(fault(kind))
        }
    }

    /// The name just scanned is not too long.
    #[inline]
    fn sized(&self) -> Result<(), u8> {
        if self.scan.size > NAME {
            Err(13)
        } else {
            Ok(())
        }
    }

    /// A name.
    #[inline]
    fn name(&mut self) -> Result<Name, u8> {
        self.expect(Kind::Name)?;
        self.sized()?;
        Ok(self.scan.name())
    }

    /// The slot of the name just scanned.
    #[inline]
    fn slot(&self) -> Result<u8, u8> {
        self.names.slot(&self.scan.key).ok_or(16)
    }

    /// A value of a slot: its name, or NONE, which is 0.
    #[inline]
    fn value(&mut self, slot: u8) -> Result<u8, u8> {
        let kind = self.scan.token();
        if kind == Kind::None {
            return Ok(0);
        }
        if kind != Kind::Name {
            return Err(fault(kind));
        }
        self.sized()?;
        self.names.value(slot, &self.scan.key).ok_or(16)
    }

    /// A slot line after its SLOT.
    fn slot_line(&mut self) -> Result<(), u8> {
        let slot = self.table.width as usize;
        if slot == SLOTS {
            return Err(15);
        }
        let name = self.name()?;
        if !self.names.enter_slot(slot as u8, &self.scan.key) {
            return Err(14);
        }
        self.table.slots[slot].name = name;
        self.expect(Kind::Open)?;
        self.values(slot)?;
        self.expect(Kind::Semicolon)?;
        self.table.width += 1;
        Ok(())
    }

    /// The values of a slot up to the `}`.
    fn values(&mut self, slot: usize) -> Result<(), u8> {
        let place = &mut self.table.slots[slot];
        let mut kind = Kind::Comma;
        while kind == Kind::Comma {
            kind = self.scan.token();
            if kind != Kind::Name {
                return Err(fault(kind));
            }
            if self.scan.size > NAME {
                return Err(13);
            }
            if self.names.value(slot as u8, &self.scan.key).is_some() {
                return Err(14);
            }
            if place.count as usize == VALUES {
                return Err(15);
            }
            place.values[place.count as usize] = self.scan.name();
            place.count += 1;
            self.names.enter_value(slot as u8, place.count as u8, &self.scan.key);
            kind = self.scan.token();
        }
        if kind == Kind::Close {
            Ok(())
        } else {
            Err(fault(kind))
        }
    }

    /// A rule after its WHEN, written in its place.
    fn rule(&mut self) -> Result<(), u8> {
        let at = self.table.count as usize;
        if at == RULES {
            return Err(15);
        }
        self.name()?;
        let slot = self.slot()?;
        self.expect(Kind::ChangesTo)?;
        let value = self.value(slot)?;
        self.table.rules[at].slot = slot;
        self.table.rules[at].value = value;
        self.expect(Kind::If)?;
        self.condition(at)?;
        self.assignments(at)?;
        self.expect(Kind::Semicolon)?;
        self.table.count += 1;
        Ok(())
    }

    /// A condition up to its THEN.
    fn condition(&mut self, at: usize) -> Result<(), u8> {
        let mut kind = self.scan.token();
        if kind == Kind::True {
            kind = self.scan.token();
            match kind {
                Kind::Then => return Ok(()),
                Kind::And => kind = self.scan.token(),
                _ => return Err(fault(kind)),
            }
        }
        loop {
            self.literal(at, kind)?;
            kind = self.scan.token();
            match kind {
                Kind::Then => return Ok(()),
                Kind::And => kind = self.scan.token(),
                _ => return Err(fault(kind)),
            }
        }
    }

    /// A literal from its first token on.
    #[inline]
    fn literal(&mut self, at: usize, first: Kind) -> Result<(), u8> {
        let tested = self.table.rules[at].tested as usize;
        let mut kind = first;
        let mut negated = false;
        while kind == Kind::Not {
            if tested == LITERALS {
                return Err(15);
            }
            negated = !negated;
            kind = self.scan.token();
        }
        if kind != Kind::Name {
            return Err(fault(kind));
        }
        self.sized()?;
        if tested == LITERALS {
            return Err(15);
        }
        let slot = self.slot()?;
        kind = self.scan.token();
        let becomes = kind == Kind::ChangesTo;
        if !becomes && kind != Kind::Was {
            return Err(fault(kind));
        }
        let value = self.value(slot)?;
        let rule: &mut Rule = &mut self.table.rules[at];
        rule.literals[tested] = Literal { becomes, negated, slot, value };
        rule.tested += 1;
        Ok(())
    }

    /// What follows THEN up to the `;`: one assignment, or a list in braces.
    fn assignments(&mut self, at: usize) -> Result<(), u8> {
        let mut kind = self.scan.token();
        if kind == Kind::Name {
            return self.assignment(at, &mut 0);
        }
        if kind != Kind::Open {
            return Err(fault(kind));
        }
        let mut assigned = 0;
        loop {
            self.expect(Kind::Name)?;
            self.assignment(at, &mut assigned)?;
            kind = self.scan.token();
            match kind {
                Kind::Comma => {}
                Kind::Close => return Ok(()),
                _ => return Err(fault(kind)),
            }
        }
    }

    /// An assignment from its slot's name on, given the slots assigned so far.
    #[inline]
    fn assignment(&mut self, at: usize, assigned: &mut u32) -> Result<(), u8> {
        self.sized()?;
        let count = self.table.rules[at].assigned as usize;
        if count == ASSIGNMENTS {
            return Err(15);
        }
        let slot = self.slot()?;
        if *assigned >> slot & 1 == 1 {
            return Err(17);
        }
        *assigned |= 1 << slot;
        self.expect(Kind::Becomes)?;
        let value = self.value(slot)?;
        let rule: &mut Rule = &mut self.table.rules[at];
        rule.assignments[count] = Assignment { slot, value };
        rule.assigned += 1;
        Ok(())
    }
}
