//! The entries of sessions read nothing outside the bytes that are lent to them and write nothing
//! outside those that are lent to be written: the two numbers, the buffer, the record, the sheet and
//! the excerpt are laid right before or right behind memory that may not be accessed, and what is
//! only read may not be written.

use yauponroof_tests::compare::session::Compared;
use yauponroof_tests::compare::whole_session::holding;
use yauponroof_tests::hex::hex;
use yauponroof_tests::library::fenced::{lend_long, lend_long_to_write, Fenced, Place};
use yauponroof_tests::library::{begin, close, feed, session_excerpt, session_sheet};
use yauponroof_tests::logs::insertion::with_run;
use yauponroof_tests::logs::notation::run;
use yauponroof_tests::logs::samples::{pending_adds, refused_logs, RUNS};
use yauponroof_tests::logs::simulation::{simulate, Clients};
use yauponroof_tests::model::reader::{LOG_MAX, MAX_RECORDS};
use yauponroof_tests::model::record::Record;
use yauponroof_tests::model::session::{State, CLOSED, OPEN};
use yauponroof_tests::model::sheet::SHEET_MAX;
use yauponroof_tests::model::writer::{header, log, record_bytes};
use yauponroof_tests::{answered, refused, Answer, Session};

/// Bytes enough for any log.
const ROOM: usize = 16_384;

/// Rooms between fences for all that is lent to a call.
struct Lender {
    numbers: Fenced,
    buffer: Fenced,
    other: Fenced,
    /// How many calls were accepted, and how many were refused.
    accepted: u64,
    refused: u64,
}

/// A call of an entry that writes to a buffer of its own alone.
type Call = fn(&Session, &[u8], &mut [u8]) -> Answer;

/// Where the two numbers, the buffer and what else is lent are laid.
type Places = [Place; 3];

fn all_places() -> impl Iterator<Item = Places> {
    let both = || Place::BOTH.into_iter();
    both().flat_map(move |a| both().flat_map(move |b| both().map(move |c| [a, b, c])))
}

/// The two numbers as bytes, and back.
fn to_bytes(session: Session) -> Vec<u8> {
    [session.stage, session.used].map(u32::to_ne_bytes).concat()
}

fn from_bytes(bytes: &[u8]) -> Session {
    let number = |at: usize| u32::from_ne_bytes(bytes[at..at + 4].try_into().expect("four bytes"));
    Session {
        stage: number(0),
        used: number(4),
    }
}

/// The two numbers where they are laid. A room begins and ends with a page, so they are aligned.
fn session_at(bytes: &[u8]) -> &Session {
    assert_eq!(bytes.len(), 8);
    let session = bytes.as_ptr().cast::<Session>();
    assert!(session.is_aligned());
    unsafe { &*session }
}

fn session_at_mut(bytes: &mut [u8]) -> &mut Session {
    session_at(bytes);
    unsafe { &mut *bytes.as_mut_ptr().cast() }
}

impl Lender {
    fn new() -> Lender {
        Lender {
            numbers: Fenced::new(8),
            buffer: Fenced::new(ROOM),
            other: Fenced::new(ROOM),
            accepted: 0,
            refused: 0,
        }
    }

    fn count(&mut self, answer: Answer) {
        match answer {
            Answer::Accepted(_) => self.accepted += 1,
            _ => self.refused += 1,
        }
    }

    /// Lends the session and its buffer to be changed; what they are then.
    fn changed(
        &mut self,
        state: &State,
        places: Places,
        call: impl FnOnce(&mut Session, &mut [u8]),
    ) -> State {
        let mut buffer = Vec::new();
        let numbers = to_bytes(state.session);
        let numbers = self.numbers.changed(&numbers, places[0], |numbers| {
            buffer = self.buffer.changed(&state.buffer, places[1], |buffer| {
                call(session_at_mut(numbers), buffer)
            });
        });
        State {
            session: from_bytes(&numbers),
            buffer,
        }
    }

    fn compare_begin(&mut self, before: &Compared) {
        let mut after = before.clone();
        let expected = after.begin();
        for places in all_places() {
            let mut answer = None;
            let state = self.changed(before.state(), places, |session, buffer| {
                answer = Some(begin(session, buffer));
            });
            assert_eq!(answer, Some(expected));
            assert_eq!(state, *after.state());
        }
        self.count(expected);
    }

    fn compare_feed(&mut self, before: &Compared, record: &[u8]) {
        let mut after = before.clone();
        let expected = after.feed(record);
        for places in all_places() {
            let mut answer = None;
            // The record is laid where no call may write.
            let room = Fenced::new(record.len());
            let state = self.changed(before.state(), places, |session, buffer| {
                room.lend(record, places[2], |record| {
                    answer = Some(feed(session, buffer, record));
                });
            });
            assert_eq!(answer, Some(expected));
            assert_eq!(state, *after.state());
        }
        self.count(expected);
    }

    /// The buffer may not be written; the two numbers may.
    fn compare_close(&mut self, before: &Compared, room: usize) {
        let mut after = before.clone();
        let expected = after.close(room);
        let State { session, buffer } = before.state();
        for places in all_places() {
            let numbers = self
                .numbers
                .changed(&to_bytes(*session), places[0], |numbers| {
                    self.buffer.lend(buffer, places[1], |buffer| {
                        let outcome = self.other.written(room, places[2], |sheet| {
                            close(session_at_mut(numbers), buffer, sheet)
                        });
                        assert_eq!(outcome, expected);
                    })
                });
            assert_eq!(from_bytes(&numbers), after.state().session);
        }
        self.count(answered(&expected));
    }

    /// Neither the numbers nor the buffer may be written.
    fn compare_closed(&mut self, closed: &Compared, sheet_room: usize, excerpt_room: usize) {
        let State { session, buffer } = closed.state();
        let sheet: (_, _, Call) = (sheet_room, closed.sheet(sheet_room), session_sheet);
        let excerpt: (_, _, Call) = (excerpt_room, closed.excerpt(excerpt_room), session_excerpt);
        for (room, expected, call) in [sheet, excerpt] {
            for places in all_places() {
                self.numbers
                    .lend(&to_bytes(*session), places[0], |numbers| {
                        self.buffer.lend(buffer, places[1], |buffer| {
                            let outcome = self.other.written(room, places[2], |out| {
                                call(session_at(numbers), buffer, out)
                            });
                            assert_eq!(outcome, expected);
                        })
                    });
            }
            self.count(answered(&expected));
        }
    }

    /// All calls on a session that holds this log, with buffers as long as needed and shorter.
    fn compare_all(&mut self, log: &[u8], record: &[u8]) {
        for behind in [
            0,
            record.len().saturating_sub(1),
            record.len(),
            record.len() + 20,
        ] {
            for stage in [OPEN, CLOSED, 2] {
                let session = holding(log, stage, behind);
                self.compare_begin(&session);
                self.compare_feed(&session, record);
            }
        }
        let closed = holding(log, CLOSED, 0);
        let needed = closed.sheet(SHEET_MAX).map_or(0, |sheet| sheet.len());
        let excerpt = closed.excerpt(LOG_MAX).map_or(0, |excerpt| excerpt.len());
        for less in [0, 1, usize::MAX] {
            let (sheet, excerpt) = (needed.saturating_sub(less), excerpt.saturating_sub(less));
            self.compare_close(&holding(log, OPEN, 5), sheet);
            self.compare_closed(&closed, sheet, excerpt);
        }
        self.compare_closed(&holding(log, OPEN, 5), needed, excerpt);
        self.compare_close(&closed, needed);
    }

    fn assert_at_least(&self, accepted: u64, refused: u64) {
        assert!(
            self.accepted >= accepted && self.refused >= refused,
            "{} calls were accepted and {} refused",
            self.accepted,
            self.refused
        );
    }
}

/// Records to feed: two that most logs take, and such that the input list refuses.
fn fed_records() -> Vec<Vec<u8>> {
    let sound = hex("0B 01 FFFF FFFFFFFF 00000063");
    let texts = [
        "",
        "00",
        "0B",
        "FF01",
        "07 02 FFFF FFFFFFFF",
        "07 03 FFFF FFFFFFFF",
    ];
    let mut records: Vec<Vec<u8>> = texts.map(hex).to_vec();
    records.push([&sound[..], &[0]].concat());
    records.push(sound);
    records
}

#[test]
fn the_runs_of_the_document_and_logs_that_are_refused() {
    let mut lender = Lender::new();
    let mut logs: Vec<Vec<u8>> = RUNS.iter().map(|(text, ..)| log(&run(text))).collect();
    logs.extend(refused_logs());
    logs.push(Vec::new());
    for (at, log) in logs.iter().enumerate() {
        let records = fed_records();
        lender.compare_all(log, &records[at % records.len()]);
        lender.compare_all(log, &records[5]);
    }
    lender.assert_at_least(650, 1100);
}

/// Logs of the most records but one, and of the most: an order and a pattern, and an order with an
/// open remove.
fn long_logs() -> Vec<Vec<Record>> {
    let text = "A1( A1) A2( A2) R( R2)";
    let before = MAX_RECORDS - text.split_whitespace().count();
    let open = "A1( A1) A2( A2) Ro( R( R2)";
    let behind = MAX_RECORDS - open.split_whitespace().count();
    vec![
        simulate(8, Clients::Reused, MAX_RECORDS, 216),
        pending_adds(MAX_RECORDS - 1),
        with_run(&pending_adds(before), &[(before, text)]),
        with_run(&pending_adds(behind), &[(0, open)]),
    ]
}

#[test]
fn the_longest_logs() {
    let mut lender = Lender::new();
    for records in long_logs() {
        lender.compare_all(&log(&records), &hex("0B 01 FFFF FFFFFFFF 00000063"));
    }
    lender.assert_at_least(45, 60);
}

#[test]
fn a_buffer_longer_than_32_bits_can_tell_is_long_enough() {
    // Cut to 32 bits the length would be 1.
    lend_long_to_write((1 << 32) + 1, |buffer| {
        let mut session = Session { stage: 7, used: 7 };
        assert_eq!(begin(&mut session, buffer), Answer::Accepted(3));
        let records = run("A1( A1) A2( A2) R( R2)");
        for record in &records {
            let record = record_bytes(record);
            let answer = feed(&mut session, buffer, &record);
            assert_eq!(answer, Answer::Accepted(record.len() as u32));
        }
        let log = log(&records);
        assert_eq!(buffer[..log.len()], log);
        let mut sheet = [0xAA; 11];
        assert_eq!(
            close(&mut session, buffer, &mut sheet),
            Answer::Accepted(10)
        );
        assert_eq!(sheet, [1, 4, 0, 3, 0, 0, 0, 1, 0, 2, 0xAA]);
        let again = session_sheet(&session, buffer, &mut sheet);
        assert_eq!(again, Answer::Accepted(10));
        let mut out = [0xAA; 64];
        let excerpt = session_excerpt(&session, buffer, &mut out);
        assert_eq!(excerpt, Answer::Accepted(63));
        assert_eq!(out[..63], log);
    });
}

#[test]
fn used_bytes_of_a_long_buffer_are_not_cut() {
    lend_long(&header(0), (1 << 32) + 3, |buffer| {
        for used in [4, (1 << 16) + 3, (1 << 31) + 3, u32::MAX] {
            for stage in [OPEN, CLOSED] {
                let mut session = Session { stage, used };
                let mut sheet = [0; 8];
                assert_eq!(close(&mut session, buffer, &mut sheet), refused(25, 0));
                assert_eq!(session_sheet(&session, buffer, &mut sheet), refused(25, 0));
                let excerpt = session_excerpt(&session, buffer, &mut sheet);
                assert_eq!(excerpt, refused(25, 0));
            }
        }
        let mut session = Session {
            stage: OPEN,
            used: 3,
        };
        assert_eq!(
            close(&mut session, buffer, &mut [0; 4]),
            Answer::Accepted(4)
        );
    });
}

#[test]
fn a_record_longer_than_32_bits_can_tell_is_not_cut() {
    // Cut to 32 bits the length would be that of one record.
    let record = hex("07 02 0001 00000001");
    lend_long(&record, (1 << 32) + 8, |long| {
        let mut session = Session {
            stage: OPEN,
            used: 3,
        };
        let mut buffer = [header(0), vec![0xAA; 20]].concat();
        assert_eq!(feed(&mut session, &mut buffer, long), refused(1, 0));
        assert_eq!(
            feed(&mut session, &mut buffer, &long[..8]),
            Answer::Accepted(8)
        );
    });
}

#[test]
fn sheets_and_excerpts_longer_than_32_bits_can_tell_are_long_enough() {
    // Cut to 32 bits the length would be 1.
    let length = (1 << 32) + 1;
    let log = log(&run("A1( A1) A2( A2) R( R2)"));
    let used = log.len() as u32;
    let mut session = Session { stage: OPEN, used };
    lend_long_to_write(length, |sheet| {
        assert_eq!(close(&mut session, &log, sheet), Answer::Accepted(10));
        assert_eq!(sheet[..11], [1, 4, 0, 3, 0, 0, 0, 1, 0, 2, 0]);
    });
    lend_long_to_write(length, |sheet| {
        assert_eq!(session_sheet(&session, &log, sheet), Answer::Accepted(10));
        assert_eq!(sheet[..11], [1, 4, 0, 3, 0, 0, 0, 1, 0, 2, 0]);
    });
    lend_long_to_write(length, |out| {
        assert_eq!(session_excerpt(&session, &log, out), Answer::Accepted(used));
        assert_eq!(out[..log.len()], log);
    });
}
