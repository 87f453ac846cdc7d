//! Whole logs handed to sessions, record by record. "For a log that is readable, or is so but for
//! 10, and buffers long enough, feeding its records and closing answers as judging the log does."

use crate::compare::session::Compared;
use crate::library::outcomes::{excerpt_made, judged};
use crate::model::reader::HEADER;
use crate::model::record::Record;
use crate::model::session::{CLOSED, OPEN};
use crate::model::sheet::SHEET_MAX;
use crate::model::writer::{header, log, record_bytes};
use crate::{refused, Answer, Outcome};

/// More bytes than are needed, to see that those behind the used ones stay as they are.
const MORE: usize = 9;

/// A session whose buffer was made to hold this log, with so many bytes behind it. The log need not
/// be one that a session can be fed.
pub fn holding(log: &[u8], stage: u32, behind: usize) -> Compared {
    let mut session = Compared::new(log.len() + behind);
    session.tamper(|state| {
        state.session.stage = stage;
        state.session.used = log.len() as u32;
        state.buffer[..log.len()].copy_from_slice(log);
    });
    session
}

/// A session that holds these records, fed one by one.
pub fn fed(records: &[Record]) -> Compared {
    fed_seen(records, |_, _| ())
}

/// The same. `see` is called with the session before each feed and at the end, and with the log of
/// what was fed so far.
pub fn fed_seen(records: &[Record], mut see: impl FnMut(&Compared, &[u8])) -> Compared {
    let mut session = Compared::begun(log(records).len() + MORE);
    let mut so_far = header(0);
    for (held, record) in (0..).zip(records) {
        see(&session, &so_far);
        let bytes = record_bytes(record);
        assert_eq!(
            session.feed(&bytes),
            Answer::Accepted(bytes.len() as u32),
            "to feed {record:?} behind {held} records"
        );
        so_far.extend(bytes);
        so_far[..HEADER].copy_from_slice(&header(held + 1));
        assert!(session.held() == so_far, "the log fed so far");
    }
    see(&session, &so_far);
    session
}

/// Closes a session that holds this log. It must answer as the judge does and write the same bytes;
/// then the sheet and the excerpt must be those of the log. A closing that is refused leaves the
/// session open.
pub fn compare_closing(session: &mut Compared, log: &[u8]) -> Outcome {
    assert!(session.held() == log, "the log is held");
    let judged = judged(log);
    assert_eq!(session.close(SHEET_MAX), judged, "left: closing");
    let (sheet, excerpt, stage) = match &judged {
        Ok(sheet) => (Ok(sheet.clone()), excerpt_made(log), CLOSED),
        Err(_) => (Err(refused(22, 0)), Err(refused(22, 0)), OPEN),
    };
    assert_eq!(session.sheet(SHEET_MAX), sheet, "left: the sheet");
    assert_eq!(session.excerpt(log.len()), excerpt, "left: the excerpt");
    assert_eq!(session.state().session.stage, stage);
    judged
}

/// Feeds the records one by one and closes, with all that is compared then.
pub fn compare_whole(records: &[Record]) -> Outcome {
    compare_closing(&mut fed(records), &log(records))
}
