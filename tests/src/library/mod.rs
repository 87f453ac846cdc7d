//! The library as its callers see it: its functions, as Rust calls them, and memory to lend to them
//! in which a stray access is noticed. Nothing here knows what is right: of the model it uses types
//! and sizes alone.

pub mod fenced;
pub mod guarded;
pub mod guarded_session;
pub mod outcomes;

use crate::{Answer, Session};

extern "C" {
    fn yr_check(log: *const u8, log_len: usize) -> u64;
    fn yr_replay(log: *const u8, log_len: usize, sheet: *const u8, sheet_len: usize) -> u64;
    fn yr_judge(log: *const u8, log_len: usize, sheet: *mut u8, sheet_len: usize) -> u64;
    fn yr_excerpt(log: *const u8, log_len: usize, out: *mut u8, out_len: usize) -> u64;
    fn yr_narrow(
        log: *const u8,
        log_len: usize,
        values: *const u32,
        count: usize,
        out: *mut u8,
        out_len: usize,
    ) -> u64;
    fn yr_page(log: *const u8, log_len: usize, page: *mut u8, page_len: usize) -> u64;
    fn yr_begin(session: *mut Session, buffer: *mut u8, length: usize) -> u64;
    fn yr_feed(
        session: *mut Session,
        buffer: *mut u8,
        length: usize,
        record: *const u8,
        record_len: usize,
    ) -> u64;
    fn yr_close(
        session: *mut Session,
        buffer: *const u8,
        length: usize,
        sheet: *mut u8,
        sheet_len: usize,
    ) -> u64;
    fn yr_sheet(
        session: *const Session,
        buffer: *const u8,
        length: usize,
        sheet: *mut u8,
        sheet_len: usize,
    ) -> u64;
    fn yr_session_excerpt(
        session: *const Session,
        buffer: *const u8,
        length: usize,
        out: *mut u8,
        out_len: usize,
    ) -> u64;
}

// The pointer of a slice is never NULL, and the library may read as many items behind it as the
// slice has; it may write as many bytes behind that of a slice that is lent by `&mut`, which
// overlaps no other.

/// Reads a log with the library: the number of its operations, or a refusal.
pub fn check(log: &[u8]) -> Answer {
    answer(unsafe { yr_check(log.as_ptr(), log.len()) })
}

/// Holds the order on a sheet against a log with the library: yes, no, or a refusal.
pub fn replay(log: &[u8], sheet: &[u8]) -> Answer {
    answer(unsafe { yr_replay(log.as_ptr(), log.len(), sheet.as_ptr(), sheet.len()) })
}

/// Judges a log with the library: the number of bytes written to the sheet, or a refusal.
pub fn judge(log: &[u8], sheet: &mut [u8]) -> Answer {
    answer(unsafe { yr_judge(log.as_ptr(), log.len(), sheet.as_mut_ptr(), sheet.len()) })
}

/// Makes the excerpt of a log with the library: the number of bytes written, or a refusal.
pub fn excerpt(log: &[u8], out: &mut [u8]) -> Answer {
    answer(unsafe { yr_excerpt(log.as_ptr(), log.len(), out.as_mut_ptr(), out.len()) })
}

/// Narrows a log to values with the library: the number of bytes written, or a refusal.
pub fn narrow(log: &[u8], values: &[u32], out: &mut [u8]) -> Answer {
    answer(unsafe {
        yr_narrow(
            log.as_ptr(),
            log.len(),
            values.as_ptr(),
            values.len(),
            out.as_mut_ptr(),
            out.len(),
        )
    })
}

/// Makes the page of a log with the library: the number of bytes written, or a refusal.
pub fn page(log: &[u8], page: &mut [u8]) -> Answer {
    answer(unsafe { yr_page(log.as_ptr(), log.len(), page.as_mut_ptr(), page.len()) })
}

/// Begins a session with the library: the number of bytes written, or a refusal.
pub fn begin(session: &mut Session, buffer: &mut [u8]) -> Answer {
    answer(unsafe { yr_begin(session, buffer.as_mut_ptr(), buffer.len()) })
}

/// Feeds a record to a session of the library: the number of bytes written, or a refusal.
pub fn feed(session: &mut Session, buffer: &mut [u8], record: &[u8]) -> Answer {
    answer(unsafe {
        yr_feed(
            session,
            buffer.as_mut_ptr(),
            buffer.len(),
            record.as_ptr(),
            record.len(),
        )
    })
}

/// Closes a session of the library: the number of bytes written to the sheet, or a refusal.
pub fn close(session: &mut Session, buffer: &[u8], sheet: &mut [u8]) -> Answer {
    answer(unsafe {
        yr_close(
            session,
            buffer.as_ptr(),
            buffer.len(),
            sheet.as_mut_ptr(),
            sheet.len(),
        )
    })
}

/// Writes the sheet of a closed session of the library: the number of bytes, or a refusal.
pub fn session_sheet(session: &Session, buffer: &[u8], sheet: &mut [u8]) -> Answer {
    answer(unsafe {
        yr_sheet(
            session,
            buffer.as_ptr(),
            buffer.len(),
            sheet.as_mut_ptr(),
            sheet.len(),
        )
    })
}

/// Makes the excerpt of a closed session of the library: the number of bytes, or a refusal.
pub fn session_excerpt(session: &Session, buffer: &[u8], out: &mut [u8]) -> Answer {
    answer(unsafe {
        yr_session_excerpt(
            session,
            buffer.as_ptr(),
            buffer.len(),
            out.as_mut_ptr(),
            out.len(),
        )
    })
}

/// The parts of the number that a call returns.
fn answer(number: u64) -> Answer {
    let high = (number >> 32) as u32;
    let low = number as u32;
    match high {
        0 => Answer::Accepted(low),
        number => Answer::Refused { number, index: low },
    }
}
