//! The proved library by its C interface: the one that is linked, or another that is loaded, so that two can be measured in one run.

use std::ffi::{c_char, c_int, c_void, CString};
use std::mem::{size_of, transmute};

use crate::engine::Engine;
use crate::raw::{self, given, respond_with, Responds, RlPrinted, RlRead, RlResponse};
use crate::response::{Answer, Caller, Outputs};
use crate::table::Table;
use crate::Refusal;

/// A function of the library that reads. C hands over the place of so large a result as one more argument, the first; said so here, the reading is written where it is kept.
type Reads = unsafe extern "C" fn(*mut RlRead, *const u8, usize);

/// The same function as the interface declares it.
type Declared = unsafe extern "C" fn(*const u8, usize) -> RlRead;

/// The entry points of a library that are measured.
struct Entries {
    read: Reads,
    read_unlayered: Reads,
    print: unsafe extern "C" fn(*const u8, usize, *mut u8, usize) -> RlPrinted,
    is_sound: unsafe extern "C" fn(Table) -> bool,
    respond: Responds,
    respond_by_marks: Responds,
}

/// A proved library, with the last reading.
pub struct Proved {
    entries: Entries,
    read: Box<RlRead>,
}

extern "C" {
    fn dlopen(file: *const c_char, flags: c_int) -> *mut c_void;
    fn dlsym(library: *mut c_void, name: *const c_char) -> *mut c_void;
}

/// All that a shared library needs is bound as it is loaded.
const RTLD_NOW: c_int = 2;

/// The address of an entry point in a library that was loaded.
fn entry(library: *mut c_void, name: &str) -> *mut c_void {
    let word = CString::new(name).expect("a name without byte 0");
    let address = unsafe { dlsym(library, word.as_ptr()) };
    assert!(!address.is_null(), "the library lacks {name}");
    address
}

/// A word that no empty reading has, and more of them than a reading has words.
const FILL: u64 = 0xA5A5_A5A5_A5A5_A5A5;
const WORDS: usize = 1 << 17;

/// How many bytes a reading has in the layout of a library.
fn reading_size(reads: Reads) -> usize {
    let mut room = vec![FILL; WORDS];
    unsafe { reads(room.as_mut_ptr().cast(), [].as_ptr(), 0) };
    8 * room.iter().rposition(|word| *word != FILL).map_or(0, |last| last + 1)
}

impl Proved {
    /// A library before any reading; only one of the layout in `raw.rs` can be called.
    fn with(entries: Entries) -> Proved {
        let (theirs, ours) = (reading_size(entries.read), size_of::<RlRead>());
        assert_eq!(theirs, ours, "the library has another layout: the bytes of its reading, and of a reading here");
        Proved { entries, read: Box::new(RlRead { number: 0, second: 0, table: *Table::empty() }) }
    }

    /// The library that is linked.
    pub fn new() -> Proved {
        let [read, read_unlayered]: [Declared; 2] = [raw::rl_read, raw::rl_read_unlayered];
        // SAFETY: both types say the same of where C puts the arguments and the result.
        let reads = |declared: Declared| unsafe { transmute::<Declared, Reads>(declared) };
        Proved::with(Entries {
            read: reads(read),
            read_unlayered: reads(read_unlayered),
            print: raw::rl_print,
            is_sound: raw::rl_is_sound,
            respond: raw::rl_respond,
            respond_by_marks: raw::rl_respond_by_marks,
        })
    }

    /// The library in a shared object.
    pub fn loaded(path: &str) -> Proved {
        let file = CString::new(path).expect("a path without byte 0");
        let library = unsafe { dlopen(file.as_ptr(), RTLD_NOW) };
        assert!(!library.is_null(), "{path} cannot be loaded");
        unsafe {
            Proved::with(Entries {
                read: transmute(entry(library, "rl_read")),
                read_unlayered: transmute(entry(library, "rl_read_unlayered")),
                print: transmute(entry(library, "rl_print")),
                is_sound: transmute(entry(library, "rl_is_sound")),
                respond: transmute(entry(library, "rl_respond")),
                respond_by_marks: transmute(entry(library, "rl_respond_by_marks")),
            })
        }
    }

    /// Reads a text with a function of the library, and says whether it was refused.
    fn read_with(&mut self, reads: Reads, text: &[u8]) -> Result<(), Refusal> {
        unsafe { reads(&mut *self.read, text.as_ptr(), text.len()) };
        given(self.read.number, self.read.second, ())
    }
}

impl Default for Proved {
    fn default() -> Proved {
        Proved::new()
    }
}

/// What a response of the library comes to.
#[inline]
fn told(response: RlResponse) -> Result<Answer, Refusal> {
    given(response.number, response.second, Answer { length: response.length, fired: response.fired })
}

impl Engine for Proved {
    fn read(&mut self, text: &[u8]) -> Result<(), Refusal> {
        self.read_with(self.entries.read, text)
    }

    fn read_unlayered(&mut self, text: &[u8]) -> Result<(), Refusal> {
        self.read_with(self.entries.read_unlayered, text)
    }

    fn table(&self) -> &Table {
        &self.read.table
    }

    fn print(&mut self, text: &[u8], out: &mut [u8]) -> Result<usize, Refusal> {
        let printed = unsafe { (self.entries.print)(text.as_ptr(), text.len(), out.as_mut_ptr(), out.len()) };
        given(printed.number, printed.second, printed.length)
    }

    fn is_sound(&mut self, table: &Table) -> bool {
        unsafe { (self.entries.is_sound)(*table) }
    }

    fn respond(
        &mut self,
        table: &Table,
        caller: Caller,
        card: &[u8],
        slip: &[u8],
        outputs: Outputs,
    ) -> Result<Answer, Refusal> {
        let Outputs { card: new_card, changes, fired } = outputs;
        let Caller { records, editor } = caller;
        told(respond_with(self.entries.respond, table, records, editor, [card, slip], [new_card, changes, fired]))
    }

    fn respond_by_marks(
        &mut self,
        table: &Table,
        caller: Caller,
        card: &[u8],
        slip: &[u8],
        outputs: Outputs,
    ) -> Result<Answer, Refusal> {
        let Outputs { card: new_card, changes, fired } = outputs;
        let Caller { records, editor } = caller;
        let responds = self.entries.respond_by_marks;
        told(respond_with(responds, table, records, editor, [card, slip], [new_card, changes, fired]))
    }
}
