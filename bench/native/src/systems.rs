//! The rules of a table, a card and a slip in the languages of other systems; each program writes the changes.

use std::fmt::Write;

use crate::table::{Name, Rule, Table};

/// A table with the text of its names, and the pairs of a card and of a slip.
pub struct Case<'a> {
    pub text: &'a [u8],
    pub table: &'a Table,
    pub card: Vec<(u8, u8)>,
    pub slip: Vec<(u8, u8)>,
}

impl Case<'_> {
    /// A name's letters.
    fn word(&self, name: &Name) -> &str {
        std::str::from_utf8(&self.text[name.range()]).unwrap_or("")
    }

    /// A slot's and a value's name, each in a quote mark, with a mark between.
    fn pair(&self, quote: char, between: &str, slot: u8, value: u8) -> String {
        let place = &self.table.slots[slot as usize];
        let (slot, value) = (self.word(&place.name), self.word(&place.values[value as usize - 1]));
        format!("{quote}{slot}{quote}{between}{quote}{value}{quote}")
    }

    /// The rules.
    fn rules(&self) -> &[Rule] {
        &self.table.rules[..self.table.count as usize]
    }

    /// For answer sets: a program without circles through a NOT has one, and its `change` atoms are the changes.
    pub fn clingo(&self) -> String {
        let pair = |(slot, value): (u8, u8)| self.pair('"', ",", slot, value);
        let mut out = String::from("#defined was/2. #defined slip/2.\n");
        self.card.iter().for_each(|of| writeln!(out, "was({}).", pair(*of)).unwrap());
        self.slip.iter().for_each(|of| writeln!(out, "slip({}).", pair(*of)).unwrap());
        out += "change(S,V) :- slip(S,V).\nbecame(S,V) :- change(S,V), not was(S,V).\n";
        for rule in self.rules() {
            let mut body = format!("became({})", pair((rule.slot, rule.value)));
            for l in rule.literals() {
                let (not, of) = (if l.negated { "not " } else { "" }, if l.becomes { "became" } else { "was" });
                write!(body, ", {not}{of}({})", pair((l.slot, l.value))).unwrap();
            }
            rule.assignments()
                .iter()
                .for_each(|a| writeln!(out, "change({}) :- {body}.", pair((a.slot, a.value))).unwrap());
        }
        out + "#show change/2.\n"
    }

    /// For Prolog: changes are tabled, each pair asked for by itself, so that what stands under NOT is complete when it is asked for.
    pub fn prolog(&self) -> String {
        let pair = |(slot, value): (u8, u8)| self.pair('\'', ",", slot, value);
        let mut out = String::from(":- table change/2, became/2.\n:- dynamic was/2, slip/2, value/2.\n");
        self.card.iter().for_each(|of| writeln!(out, "was({}).", pair(*of)).unwrap());
        self.slip.iter().for_each(|of| writeln!(out, "slip({}).", pair(*of)).unwrap());
        for (slot, place) in self.table.slots[..self.table.width as usize].iter().enumerate() {
            (1..=place.count).for_each(|value| writeln!(out, "value({}).", pair((slot as u8, value as u8))).unwrap());
        }
        out += "became(S,V) :- change(S,V), \\+ was(S,V).\nchange(S,V) :- slip(S,V).\n";
        for rule in self.rules() {
            let mut body = format!("became({})", pair((rule.slot, rule.value)));
            for l in rule.literals() {
                let of = pair((l.slot, l.value));
                let goal = match (l.becomes, l.negated) {
                    (true, false) => format!("became({of})"),
                    (true, true) => format!("tnot(became({of}))"),
                    (false, false) => format!("was({of})"),
                    (false, true) => format!("\\+ was({of})"),
                };
                write!(body, ", {goal}").unwrap();
            }
            rule.assignments()
                .iter()
                .for_each(|a| writeln!(out, "change({}) :- {body}.", pair((a.slot, a.value))).unwrap());
        }
        out + ":- initialization((forall((value(S,V), change(S,V)), format(\"change ~w ~w~n\", [S,V])), halt)).\n"
    }

    /// For production rules: salience keeps the strata, a lower one first.
    pub fn clips(&self) -> String {
        let pair = |(slot, value): (u8, u8)| self.pair('"', " ", slot, value);
        let became = |of: &str| format!("(and (change {of}) (not (was {of})))");
        let mut out = String::from("(deffacts entry\n");
        self.card.iter().for_each(|of| writeln!(out, " (was {})", pair(*of)).unwrap());
        self.slip.iter().for_each(|of| writeln!(out, " (change {})", pair(*of)).unwrap());
        out += ")\n";
        for (at, rule) in self.rules().iter().enumerate() {
            let tests = rule.literals().iter().map(|l| {
                let of = pair((l.slot, l.value));
                let test = if l.becomes { became(&of) } else { format!("(was {of})") };
                if l.negated {
                    format!("(not {test})")
                } else {
                    test
                }
            });
            let tests: Vec<String> = std::iter::once(became(&pair((rule.slot, rule.value)))).chain(tests).collect();
            let then: Vec<String> =
                rule.assignments().iter().map(|a| format!("(change {})", pair((a.slot, a.value)))).collect();
            let (tests, then) = (tests.join(" "), then.join(" "));
            writeln!(
                out,
                "(defrule rule-{} (declare (salience -{})) {tests} => (assert {then}))",
                at + 1,
                rule.stratum
            )
            .unwrap();
        }
        out +=
            "(defrule write (declare (salience -1000)) (change ?s ?v) => (printout t \"change \" ?s \" \" ?v crlf))\n";
        out + "(reset)\n(run)\n(exit)\n"
    }
}
