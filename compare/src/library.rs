//! The C calls of a library, safe on slices: of the one that this program is
//! linked with, or of one that is loaded, to have two side by side. The
//! declarations of its calls are those of include/lockmgr.h.

use crate::comparison::Buffers;
use model::{Answer, Calls, Config, Cycle, Drained, Text, ACCEPTED};
use std::ffi::{c_char, c_int, c_void, CStr, CString};
use std::{mem, ptr};

#[repr(C)]
struct LockmgrAnswer {
    refusal: u8,
    sent: u8,
    closed: u8,
    victim: u8,
    initiator: u8,
}

#[repr(C)]
struct LockmgrCycle {
    refusal: u8,
    length: u8,
}

#[repr(C)]
struct LockmgrDrained {
    refusal: u8,
    made: u64,
    ending: u8,
}

#[repr(C)]
struct LockmgrText {
    refusal: u8,
    length: u16,
}

extern "C" {
    fn lockmgr_start(
        sessions: u64,
        items: u64,
        capacity: u64,
        ranks: *const u8,
        ranks_len: usize,
        table: *mut u8,
        table_len: usize,
        mail: *mut u8,
        mail_len: usize,
    ) -> u8;

    fn lockmgr_step(
        verb: u64,
        session: u64,
        item: u64,
        table: *mut u8,
        table_len: usize,
        mail: *mut u8,
        mail_len: usize,
    ) -> LockmgrAnswer;

    fn lockmgr_report(session: u64, table: *const u8, table_len: usize) -> LockmgrCycle;

    fn lockmgr_drain(
        limit: u64,
        table: *mut u8,
        table_len: usize,
        mail: *mut u8,
        mail_len: usize,
    ) -> LockmgrDrained;

    fn lockmgr_cycle_text(
        session: u64,
        table: *const u8,
        table_len: usize,
        text: *mut u8,
        text_len: usize,
    ) -> LockmgrText;

    fn lockmgr_reopen(
        session: u64,
        table: *mut u8,
        table_len: usize,
        mail: *const u8,
        mail_len: usize,
    ) -> u8;
}

// From the C library.
extern "C" {
    fn dlopen(path: *const c_char, flags: c_int) -> *mut c_void;
    fn dlsym(library: *mut c_void, name: *const c_char) -> *mut c_void;
}

type Start =
    unsafe extern "C" fn(u64, u64, u64, *const u8, usize, *mut u8, usize, *mut u8, usize) -> u8;
type Step = unsafe extern "C" fn(u64, u64, u64, *mut u8, usize, *mut u8, usize) -> LockmgrAnswer;
type Report = unsafe extern "C" fn(u64, *const u8, usize) -> LockmgrCycle;
type Drain = unsafe extern "C" fn(u64, *mut u8, usize, *mut u8, usize) -> LockmgrDrained;
type CycleText = unsafe extern "C" fn(u64, *const u8, usize, *mut u8, usize) -> LockmgrText;
type Reopen = unsafe extern "C" fn(u64, *mut u8, usize, *const u8, usize) -> u8;

/// The functions of a library.
pub struct Library {
    start: Start,
    step: Step,
    report: Report,
    drain: Drain,
    cycle_text: CycleText,
    /// None in an earlier library, which has no such call.
    reopen: Option<Reopen>,
}

/// Every name is looked up when the library is loaded. It stays the library's own,
/// so that the names of two do not meet.
const RTLD_NOW: c_int = 2;

impl Library {
    /// The one that this program is linked with.
    pub const LINKED: Library = Library {
        start: lockmgr_start,
        step: lockmgr_step,
        report: lockmgr_report,
        drain: lockmgr_drain,
        cycle_text: lockmgr_cycle_text,
        reopen: Some(lockmgr_reopen),
    };

    /// A shared library, which is never unloaded.
    ///
    /// # Safety
    /// The path names a build of this library with the interface of
    /// include/lockmgr.h, or an earlier one that lacks calls alone.
    pub unsafe fn load(path: &str) -> Result<Library, String> {
        let c_path = CString::new(path).map_err(|_| format!("no path: {path}"))?;
        // SAFETY: the path ends in a zero. What loading runs is the caller's promise.
        let library = unsafe { dlopen(c_path.as_ptr(), RTLD_NOW) };
        if library.is_null() {
            return Err(format!("{path} is no shared library"));
        }
        let find = |name: &CStr| {
            // SAFETY: the library is loaded, and the name ends in a zero.
            let function = unsafe { dlsym(library, name.as_ptr()) };
            if function.is_null() {
                Err(format!("{path} has no {name:?}"))
            } else {
                Ok(function)
            }
        };
        // SAFETY: by the caller's promise each has the type of that name in
        // include/lockmgr.h, and the library stays loaded.
        unsafe {
            let library = Library {
                start: mem::transmute::<*mut c_void, Start>(find(c"lockmgr_start")?),
                step: mem::transmute::<*mut c_void, Step>(find(c"lockmgr_step")?),
                report: mem::transmute::<*mut c_void, Report>(find(c"lockmgr_report")?),
                drain: mem::transmute::<*mut c_void, Drain>(find(c"lockmgr_drain")?),
                cycle_text: mem::transmute::<*mut c_void, CycleText>(find(c"lockmgr_cycle_text")?),
                reopen: find(c"lockmgr_reopen")
                    .ok()
                    .map(|function| mem::transmute::<*mut c_void, Reopen>(function)),
            };
            if library.takes_tables() {
                Ok(library)
            } else {
                Err(format!("{path} takes other tables"))
            }
        }
    }

    /// Whether it takes tables of this layout: it reports on the smallest one. The
    /// start of an earlier layout would be another function; a report is the same
    /// in every layout.
    fn takes_tables(&self) -> bool {
        let config = Config::plain(1, 1, 1);
        let mut fresh = Buffers::filled(&config, 0);
        model::start(&config, &mut fresh.table, &mut fresh.mail);
        self.report(1, &fresh.table).refusal == ACCEPTED
    }

    pub fn has_reopen(&self) -> bool {
        self.reopen.is_some()
    }
}

/// The pointer that C passes for bytes that are only read: null if there are
/// none.
fn const_pointer(bytes: &[u8]) -> *const u8 {
    if bytes.is_empty() {
        ptr::null()
    } else {
        bytes.as_ptr()
    }
}

/// The same for bytes that may be written.
fn pointer(bytes: &mut [u8]) -> *mut u8 {
    if bytes.is_empty() {
        ptr::null_mut()
    } else {
        bytes.as_mut_ptr()
    }
}

impl Calls for Library {
    fn start(&self, config: &Config, table: &mut [u8], mail: &mut [u8]) -> u8 {
        let &Config {
            sessions,
            items,
            capacity,
            ranks,
        } = config;
        // SAFETY: each pointer is good for its length, two `&mut` never overlap, and
        // the ranks are only read.
        unsafe {
            (self.start)(
                sessions,
                items,
                capacity,
                const_pointer(ranks),
                ranks.len(),
                pointer(table),
                table.len(),
                pointer(mail),
                mail.len(),
            )
        }
    }

    fn step(
        &self,
        verb: u64,
        session: u64,
        item: u64,
        table: &mut [u8],
        mail: &mut [u8],
    ) -> Answer {
        // SAFETY: as for `start`.
        let answer = unsafe {
            (self.step)(
                verb,
                session,
                item,
                pointer(table),
                table.len(),
                pointer(mail),
                mail.len(),
            )
        };
        Answer {
            refusal: answer.refusal,
            sent: answer.sent,
            closed: answer.closed,
            victim: answer.victim,
            initiator: answer.initiator,
        }
    }

    fn report(&self, session: u64, table: &[u8]) -> Cycle {
        // SAFETY: the pointer is good for its length, and report only reads.
        let cycle = unsafe { (self.report)(session, const_pointer(table), table.len()) };
        Cycle {
            refusal: cycle.refusal,
            length: cycle.length,
        }
    }

    fn drain(&self, limit: u64, table: &mut [u8], mail: &mut [u8]) -> Drained {
        // SAFETY: as for `start`.
        let drained = unsafe {
            (self.drain)(
                limit,
                pointer(table),
                table.len(),
                pointer(mail),
                mail.len(),
            )
        };
        Drained {
            refusal: drained.refusal,
            made: drained.made,
            ending: drained.ending,
        }
    }

    fn cycle_text(&self, session: u64, table: &[u8], text: &mut [u8]) -> Text {
        // SAFETY: each pointer is good for its length, the table is only read, and
        // a `&mut` overlaps nothing.
        let written = unsafe {
            (self.cycle_text)(
                session,
                const_pointer(table),
                table.len(),
                pointer(text),
                text.len(),
            )
        };
        Text {
            refusal: written.refusal,
            length: written.length,
        }
    }

    /// Not for an earlier library without this call.
    fn reopen(&self, session: u64, table: &mut [u8], mail: &[u8]) -> u8 {
        let reopen = self.reopen.expect("the library reopens sessions");
        // SAFETY: each pointer is good for its length, the mail is only read, and a
        // `&mut` overlaps nothing.
        unsafe {
            reopen(
                session,
                pointer(table),
                table.len(),
                const_pointer(mail),
                mail.len(),
            )
        }
    }
}
