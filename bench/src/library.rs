//! A library opened by its file, so that two of them can be measured in one process; and its calls on slices.

use himm_model::import::Import;
use himm_model::ABSENT;
use std::ffi::{c_char, c_int, c_void, CString};
use std::mem::{size_of, transmute_copy};

extern "C" {
    fn dlopen(file: *const c_char, mode: c_int) -> *mut c_void;
    fn dlsym(library: *mut c_void, name: *const c_char) -> *mut c_void;
}

/// `RTLD_NOW` and `RTLD_LOCAL`: each library's names are its own.
const NOW_AND_LOCAL: c_int = 2;

/// Books and sheets of every library have fewer words.
const MOST_WORDS: usize = 8192;

// The calls as in include/himm.h. Where a newer library's call has more out-parameters at its end, an older one is called with them too:
// by the calling convention of x86-64 it leaves them alone. So it is with himm_step before version 2, which has no word for the node: a
// pointer to that word is the seventh argument, which the caller puts on the stack and takes off again; the older call never looks there.
type Open = unsafe extern "C" fn(*mut u32, usize, *mut u32, usize) -> u32;
type OpenTable = unsafe extern "C" fn(*const u32, usize, *mut u32, usize, *mut u32, usize) -> u32;
type Ladder = unsafe extern "C" fn(u32, *mut u32, usize, *mut u32) -> u32;
type Load = unsafe extern "C" fn(*mut u32, usize, *mut u32, usize, *const u8, usize, *mut u64, *mut u64) -> u32;
type Exit = unsafe extern "C" fn(*const u32, usize, *const u32, usize, u32, u32, *mut u32) -> u32;
type Step = unsafe extern "C" fn(*const u32, usize, u32, u32, *mut u32, *mut u32, *mut u32) -> u32;
type Plan = unsafe extern "C" fn(*const u32, usize, *const u32, usize, u32, u32, *mut u8, usize, *mut u32, *mut u32) -> u32;
type Write = unsafe extern "C" fn(*const u32, usize, *mut u8, usize, *mut u32) -> u32;
type Choose = unsafe extern "C" fn(*const u32, usize, u32, u32, *const u8, usize, *const u8, usize, *mut u32, *mut u32) -> u32;
type Merge = unsafe extern "C" fn(*const u32, usize, *const u32, usize, *mut u32, usize, *mut u32, usize) -> u32;
type Importing = unsafe extern "C" fn(u32, u32, u32, u32, f32, f32, *mut u8, usize, *mut u32) -> u32;
type Walkers = unsafe extern "C" fn(*const u32, usize, u32, u32, *const u32, usize) -> u32;
type Walk = unsafe extern "C" fn(*const u32, usize, u32, u32, *mut u32, usize, u32, u32, *mut u32, *mut u32) -> u32;
type Turn = unsafe extern "C" fn(*const u32, usize, *mut u32, usize) -> u32;

/// The calls of a library, `None` where it lacks one, and the lengths of its books and sheets.
pub struct Library {
    opened: Opened,
    open_fresh: Option<Open>,
    open_ladder: Option<Open>,
    open_table: Option<OpenTable>,
    ladder: Option<Ladder>,
    load: Option<Load>,
    exit: Option<Exit>,
    step: Option<Step>,
    plan: Option<Plan>,
    write: Option<Write>,
    choose: Option<Choose>,
    merge: Option<Merge>,
    import: Option<Importing>,
    walkers: Option<Walkers>,
    walk: Option<Walk>,
    by_command: Option<Turn>,
    by_node: Option<Turn>,
    step_by_command: Option<Step>,
    plan_by_command: Option<Plan>,
    pub book_words: usize,
    pub sheet_words: usize,
}

/// What a step gives: a state, a cost, and the node whose transition was used, `None` from a library that does not name it.
#[derive(Clone, Copy, Debug, PartialEq, Eq)]
pub struct Moved {
    pub state: u32,
    pub cost: u32,
    pub node: Option<u32>,
}

/// An opened file.
struct Opened(*mut c_void);

impl Opened {
    /// Opens a shared object, for as long as the program runs.
    fn file(path: &str) -> Opened {
        let name = CString::new(path).expect("a path");
        // SAFETY: the path ends in a zero byte, and the library runs no code of its own when it is opened.
        let opened = unsafe { dlopen(name.as_ptr(), NOW_AND_LOCAL) };
        assert!(!opened.is_null(), "{path} cannot be opened as a shared object");
        Opened(opened)
    }

    /// The address of a name, null where the library has none.
    fn address(&self, name: &str) -> *mut c_void {
        let name = CString::new(name).expect("a name");
        // SAFETY: the file is open, and the name ends in a zero byte.
        unsafe { dlsym(self.0, name.as_ptr()) }
    }

    /// The call of a name.
    fn call<Call>(&self, name: &str) -> Option<Call> {
        assert_eq!(size_of::<Option<Call>>(), size_of::<*mut c_void>());
        // SAFETY: a function that may be absent is a pointer that may be null; the header gives each name its type.
        unsafe { transmute_copy(&self.address(name)) }
    }
}

/// The lengths of a book and a sheet that a library's opening takes, found by trying: they differ between versions.
fn lengths(open: Open) -> Option<(usize, usize)> {
    let (mut book, mut sheet) = (vec![0; MOST_WORDS], vec![0; MOST_WORDS]);
    // SAFETY: both lists are as long as the longest length that is tried.
    let mut taken = |b: usize, s: usize| unsafe { open(book.as_mut_ptr(), b, sheet.as_mut_ptr(), s) } == 0;
    (0..=MOST_WORDS).find_map(|b| (0..=MOST_WORDS).find(|&s| taken(b, s)).map(|s| (b, s)))
}

impl Library {
    /// The library in a shared object. It stays open, so every holding may refer to it.
    pub fn open(path: &str) -> &'static Library {
        let opened = Opened::file(path);
        let open_fresh = opened.call("himm_open_fresh");
        let (book_words, sheet_words) = open_fresh.and_then(lengths).expect("a library that opens a book and a sheet");
        Box::leak(Box::new(Library {
            open_fresh,
            open_ladder: opened.call("himm_open_ladder"),
            open_table: opened.call("himm_open_table"),
            ladder: opened.call("himm_ladder"),
            load: opened.call("himm_load"),
            exit: opened.call("himm_exit"),
            step: opened.call("himm_step"),
            plan: opened.call("himm_plan"),
            write: opened.call("himm_write"),
            choose: opened.call("himm_choose"),
            merge: opened.call("himm_merge"),
            import: opened.call("himm_import"),
            walkers: opened.call("himm_walkers"),
            walk: opened.call("himm_walk"),
            by_command: opened.call("himm_by_command"),
            by_node: opened.call("himm_by_node"),
            step_by_command: opened.call("himm_step_by_command"),
            plan_by_command: opened.call("himm_plan_by_command"),
            opened,
            book_words,
            sheet_words,
        }))
    }

    /// Whether the library has the call of this name.
    pub fn has(&self, name: &str) -> bool {
        !self.opened.address(name).is_null()
    }

    // SAFETY, in every call below: each pointer is that of a slice, passed with the slice's length; mutable slices overlap nothing.

    /// A fresh book and its sheet.
    pub fn open_fresh(&self, book: &mut [u32], sheet: &mut [u32]) -> Result<(), u32> {
        answer(unsafe { self.open_fresh.expect("himm_open_fresh")(book.as_mut_ptr(), book.len(), sheet.as_mut_ptr(), sheet.len()) }, ())
    }

    /// The ladder's book and its sheet.
    pub fn open_ladder(&self, book: &mut [u32], sheet: &mut [u32]) -> Result<(), u32> {
        answer(unsafe { self.open_ladder.expect("himm_open_ladder")(book.as_mut_ptr(), book.len(), sheet.as_mut_ptr(), sheet.len()) }, ())
    }

    /// A table's book and its sheet.
    pub fn open_table(&self, rows: &[u32], book: &mut [u32], sheet: &mut [u32]) -> Result<(), u32> {
        let (call, b, s) = (self.open_table.expect("himm_open_table"), (book.as_mut_ptr(), book.len()), (sheet.as_mut_ptr(), sheet.len()));
        answer(unsafe { call(rows.as_ptr(), rows.len(), b.0, b.1, s.0, s.1) }, ())
    }

    /// The number of words of the ladder's rows for a depth, which go to the output.
    pub fn ladder(&self, depth: u32, out: &mut [u32]) -> Result<usize, u32> {
        let (call, mut length) = (self.ladder.expect("himm_ladder"), 0);
        let number = unsafe { call(depth, out.as_mut_ptr(), out.len(), &mut length) };
        answer(number, length as usize)
    }

    /// A stream's commands done.
    pub fn load(&self, book: &mut [u32], sheet: &mut [u32], stream: &[u8]) -> Result<(), u32> {
        let (call, mut bytes, mut commands) = (self.load.expect("himm_load"), 0, 0);
        let (b, s) = ((book.as_mut_ptr(), book.len()), (sheet.as_mut_ptr(), sheet.len()));
        answer(unsafe { call(b.0, b.1, s.0, s.1, stream.as_ptr(), stream.len(), &mut bytes, &mut commands) }, ())
    }

    /// An exit cost.
    pub fn exit(&self, book: &[u32], sheet: &[u32], machine: u32, command: u32) -> Result<u32, u32> {
        let (call, mut cost) = (self.exit.expect("himm_exit"), 0);
        let number = unsafe { call(book.as_ptr(), book.len(), sheet.as_ptr(), sheet.len(), machine, command, &mut cost) };
        answer(number, cost)
    }

    /// The state that a command leads to, its cost and the node.
    pub fn step(&self, book: &[u32], state: u32, command: u32) -> Result<Moved, u32> {
        step(self.step.expect("himm_step"), book, state, command)
    }

    /// The same of a book by command.
    pub fn step_by_command(&self, book: &[u32], state: u32, command: u32) -> Result<Moved, u32> {
        step(self.step_by_command.expect("himm_step_by_command"), book, state, command)
    }

    /// The cost of a plan, whose commands go to the buffer.
    pub fn plan(&self, book: &[u32], sheet: &[u32], pair: (u32, u32), buffer: &mut [u8]) -> Result<u32, u32> {
        plan(self.plan.expect("himm_plan"), book, sheet, pair, buffer)
    }

    /// The same over a book by command.
    pub fn plan_by_command(&self, book: &[u32], sheet: &[u32], pair: (u32, u32), buffer: &mut [u8]) -> Result<u32, u32> {
        plan(self.plan_by_command.expect("himm_plan_by_command"), book, sheet, pair, buffer)
    }

    /// A book by node turned by command.
    pub fn by_command(&self, book: &[u32], out: &mut [u32]) -> Result<(), u32> {
        turn(self.by_command.expect("himm_by_command"), book, out)
    }

    /// A book by command turned by node.
    pub fn by_node(&self, book: &[u32], out: &mut [u32]) -> Result<(), u32> {
        turn(self.by_node.expect("himm_by_node"), book, out)
    }

    /// The length of a book's stream, whose bytes go to the output.
    pub fn write(&self, book: &[u32], out: &mut [u8]) -> Result<usize, u32> {
        let (call, mut length) = (self.write.expect("himm_write"), 0);
        let number = unsafe { call(book.as_ptr(), book.len(), out.as_mut_ptr(), out.len(), &mut length) };
        answer(number, length as usize)
    }

    /// Which of two lists is chosen, and how many of its commands are used.
    pub fn choose(&self, book: &[u32], (from, to): (u32, u32), first: &[u8], second: &[u8]) -> Result<(u32, u32), u32> {
        let (call, mut which, mut used) = (self.choose.expect("himm_choose"), 0, 0);
        let (one, two) = ((first.as_ptr(), first.len()), (second.as_ptr(), second.len()));
        let number = unsafe { call(book.as_ptr(), book.len(), from, to, one.0, one.1, two.0, two.1, &mut which, &mut used) };
        answer(number, (which, used))
    }

    /// Two books made one, with its sheet.
    pub fn merge(&self, first: &[u32], second: &[u32], book: &mut [u32], sheet: &mut [u32]) -> Result<(), u32> {
        let call = self.merge.expect("himm_merge");
        let (one, two) = ((first.as_ptr(), first.len()), (second.as_ptr(), second.len()));
        answer(unsafe { call(one.0, one.1, two.0, two.1, book.as_mut_ptr(), book.len(), sheet.as_mut_ptr(), sheet.len()) }, ())
    }

    /// The length of a timing's bytes, which go to the output.
    pub fn import(&self, lent: &Import, out: &mut [u8]) -> Result<usize, u32> {
        let (call, mut length) = (self.import.expect("himm_import"), 0);
        let (seconds, dead_time) = (f32::from_bits(lent.seconds), f32::from_bits(lent.dead_time));
        let (at, room) = (out.as_mut_ptr(), out.len());
        let number = unsafe { call(lent.node, lent.command, lent.target, lent.kind, seconds, dead_time, at, room, &mut length) };
        answer(number, length as usize)
    }

    /// Walkers opened at their states, with a limit on a node.
    pub fn walkers(&self, book: &[u32], (node, limit): (u32, u32), walkers: &[u32]) -> Result<(), u32> {
        let call = self.walkers.expect("himm_walkers");
        answer(unsafe { call(book.as_ptr(), book.len(), node, limit, walkers.as_ptr(), walkers.len()) }, ())
    }

    /// A walker's command: its cost and the node; the walker's state goes to its place among the states.
    pub fn walk(&self, book: &[u32], (node, limit): (u32, u32), states: &mut [u32], walker: u32, command: u32) -> Result<(u32, u32), u32> {
        let (call, mut cost, mut acted) = (self.walk.expect("himm_walk"), 0, 0);
        let (b, s) = ((book.as_ptr(), book.len()), (states.as_mut_ptr(), states.len()));
        let number = unsafe { call(b.0, b.1, node, limit, s.0, s.1, walker, command, &mut cost, &mut acted) };
        answer(number, (cost, acted))
    }
}

/// A step by one of the two calls. The node's word holds no node's number before the call: a library that leaves it so does not name the
/// node.
fn step(call: Step, book: &[u32], state: u32, command: u32) -> Result<Moved, u32> {
    let (mut next, mut cost, mut node) = (0, 0, ABSENT);
    let number = unsafe { call(book.as_ptr(), book.len(), state, command, &mut next, &mut cost, &mut node) };
    answer(number, Moved { state: next, cost, node: (node != ABSENT).then_some(node) })
}

/// A plan by one of the two calls.
fn plan(call: Plan, book: &[u32], sheet: &[u32], (from, to): (u32, u32), buffer: &mut [u8]) -> Result<u32, u32> {
    let ((b, s), mut cost, mut count) = (((book.as_ptr(), book.len()), (sheet.as_ptr(), sheet.len())), 0, 0);
    let number = unsafe { call(b.0, b.1, s.0, s.1, from, to, buffer.as_mut_ptr(), buffer.len(), &mut cost, &mut count) };
    answer(number, cost)
}

/// A turn by one of the two calls.
fn turn(call: Turn, book: &[u32], out: &mut [u32]) -> Result<(), u32> {
    answer(unsafe { call(book.as_ptr(), book.len(), out.as_mut_ptr(), out.len()) }, ())
}

/// What a call gave, or the number of its refusal.
fn answer<T>(number: u32, given: T) -> Result<T, u32> {
    if number == 0 {
        Ok(given)
    } else {
        Err(number)
    }
}
