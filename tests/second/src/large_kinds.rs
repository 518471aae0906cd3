//! The kinds of texts, prints and responses about the limits of the library, and of texts about those of the program.

use crate::kinds::{holding, Kind};
use crate::print::styled;
use crate::raw::PRINT_BYTES;
use crate::read::{read, read_within, LIBRARY, PROGRAM};
use crate::response::fired_count;
use crate::strata::strata;
use crate::table::{Name, Table, RULES};
use crate::table31::{tested, unlayered};
use crate::Refusal;

/// The kinds of a text by its reading.
pub fn large_text_kinds(text: &[u8]) -> Vec<Kind> {
    let table = match read(text) {
        Ok(table) => table,
        Err(why) => return refused_kinds(text, why),
    };
    let rules = usize::from(table.count);
    let far = |name: &Name| name.start > 65_535;
    holding(&[
        (Kind::MoreRules, rules > PROGRAM.rules),
        (Kind::MostRules, rules == RULES),
        (Kind::HighStrata, table.rules.iter().any(|rule| rule.stratum > 255)),
        (Kind::LongText, text.len() > PROGRAM.bytes),
        (Kind::LongestText, text.len() == LIBRARY.bytes),
        (Kind::FarName, table.slots.iter().any(|slot| far(&slot.name) || slot.values.iter().any(far))),
    ])
}

/// The kinds of a text that is refused.
fn refused_kinds(text: &[u8], why: Refusal) -> Vec<Kind> {
    let Refusal { number, second } = why;
    holding(&[
        (Kind::TextTooLong, number == 10 && text.len() == LIBRARY.bytes + 1),
        (Kind::OneRuleMore, (number, second) == (15, RULES)),
        (Kind::BadAfterRules, (number, second) == (11, RULES)),
        (Kind::WrongAfterRules, (number, second) == (12, RULES)),
        (Kind::LateRefusal, (11..=17).contains(&number) && (PROGRAM.rules + 1..RULES).contains(&second)),
        (Kind::HighRuleNamed, number == 18 && second > 255),
    ])
}

/// The kinds of a print by the text and what printing came to.
pub fn large_print_kinds(text: &[u8], printed: Result<usize, Refusal>) -> Vec<Kind> {
    let number = printed.map_or_else(|why| why.number, |_| 0);
    let length = printed.unwrap_or(0);
    holding(&[
        (Kind::LongPrint, length > PROGRAM.bytes),
        (Kind::LongestPrint, length == PRINT_BYTES),
        (Kind::PrintTooLong, number == 34 && styled(text).len() == PRINT_BYTES + 1),
    ])
}

/// The kinds of a table by its count and by the strata of its rules.
pub fn large_table_kinds(table: &Table) -> Vec<Kind> {
    let most = RULES as u16;
    let held = |count: u16| table.count == count && tested(&Table { count: most, ..*table }).is_ok();
    let strata = unlayered(table).map(|program| strata(&program.rules));
    holding(&[
        (Kind::CountOneMore, held(most + 1)),
        (Kind::CountGreatest, held(u16::MAX)),
        (Kind::HighStrata, matches!(&strata, Ok(Ok(numbers)) if numbers.iter().any(|number| *number > 255))),
        (Kind::HighRuleNamed, matches!(&strata, Ok(Err(rule)) if *rule > 255)),
    ])
}

/// The kinds of a response by its table, what it came to and the output of its fired record.
pub fn large_response_kinds(table: &Table, result: Result<usize, Refusal>, fired: &[u8]) -> Vec<Kind> {
    let number = result.map_or_else(|why| why.number, |_| 0);
    let fires = |rule: usize| fired.get((rule - 1) / 8).map_or(false, |byte| byte >> (7 - (rule - 1) % 8) & 1 == 1);
    let rules = 1..=usize::from(table.count);
    holding(&[
        (Kind::HighRuleFires, number == 0 && rules.skip(255).any(fires)),
        (Kind::LastRuleFires, number == 0 && usize::from(table.count) == RULES && fires(RULES)),
        (Kind::ManyFire, number == 0 && fired_count(&fired[..(usize::from(table.count) + 7) / 8]) > 255),
        (Kind::ShortRecord, result == Err(Refusal { number: 30, second: 3 }) && fired.len() >= 32),
    ])
}

/// The kinds of a text for the program.
pub fn program_kinds(text: &[u8]) -> Vec<Kind> {
    let refused = read_within(PROGRAM, text).err().map(|why| (why.number, why.second));
    let table = read(text);
    let rules = table.as_ref().map_or(0, |table| usize::from(table.count));
    let beyond = |number: u8| table.is_ok() && refused.map(|why| why.0) == Some(number);
    holding(&[
        (Kind::ProgramMostRules, refused.is_none() && rules == PROGRAM.rules),
        (Kind::ProgramOneRuleMore, beyond(15) && rules == PROGRAM.rules + 1),
        (Kind::ProgramManyRules, beyond(15) && rules > PROGRAM.rules + 1),
        (Kind::ProgramLongestText, refused.is_none() && text.len() == PROGRAM.bytes),
        (Kind::ProgramTooLong, beyond(10) && text.len() == PROGRAM.bytes + 1),
        (Kind::ProgramMuchTooLong, beyond(10) && text.len() > PROGRAM.bytes + 1),
        (Kind::ProgramBoth, beyond(10) && rules > PROGRAM.rules),
    ])
}
