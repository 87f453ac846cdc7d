//! Holds the archive of a log against the model's: the sheet that the judge writes and, with a
//! pattern, the excerpt. With an open remove "the archive keeps the sheet alone".

use crate::hex::show;
use crate::library::outcomes::{excerpt_made, judged};
use crate::library::replay;
use crate::model::history::{has_pending_remove, operations, Operation};
use crate::model::judged_log::is_judged_order;
use crate::model::judgement::{judgement, Judgement};
use crate::model::linearization::is_linearization;
use crate::model::projection::excerpted;
use crate::model::record::Record;
use crate::model::search::has_linearization;
use crate::model::sheet::{order_on, verdict_on, violation_sheet, ORDER};
use crate::model::violations::{first_violation, Violation};
use crate::model::{reader, writer};
use crate::{refused, YES};

/// How often the judge gave each verdict: at 0 an order, at 1 to 6 the pattern of that number.
#[derive(Debug, Default)]
pub struct Archives {
    seen: [u64; 7],
    /// How many of the orders list an open remove.
    took: u64,
}

impl Archives {
    pub fn new() -> Archives {
        Archives::default()
    }

    /// Compares the archive of a readable log, and counts its verdict, which is returned.
    pub fn compare(&mut self, log: &[u8]) -> u8 {
        let records = reader::read(log).expect("a readable log");
        let operations = operations(&records);
        let verdict = match judgement(&operations) {
            Judgement::Pattern(violation) => {
                compare_violation(log, &records, &violation);
                violation.number
            }
            Judgement::Order(settled) => {
                compare_order(log, &operations, &settled);
                self.took += u64::from(settled != operations);
                ORDER
            }
        };
        self.seen[usize::from(verdict)] += 1;
        verdict
    }

    /// The same for the log of these records.
    pub fn compare_records(&mut self, records: &[Record]) -> u8 {
        self.compare(&writer::log(records))
    }

    /// The same, and an order must be told exactly where the search finds one, which knows nothing
    /// of patterns.
    pub fn compare_with_search(&mut self, records: &[Record]) {
        let verdict = self.compare_records(records);
        let has_order = has_linearization(&operations(records));
        assert_eq!(verdict == ORDER, has_order, "{records:?}");
    }

    /// How often each verdict was seen.
    pub fn seen(&self) -> [u64; 7] {
        self.seen
    }

    /// How many orders were seen that list an open remove.
    pub fn took(&self) -> u64 {
        self.took
    }

    /// Asserts that each verdict was seen as often as its floor says: an order first, then 1 to 6.
    pub fn assert_at_least(&self, floors: [u64; 7]) {
        for (verdict, (seen, floor)) in self.seen.iter().zip(floors).enumerate() {
            assert!(
                *seen >= floor,
                "verdict {verdict} was seen {seen} times, not {floor}; seen: {:?}",
                self.seen
            );
        }
    }
}

/// The verdict byte and the operations on the sheet for the log of these records. Its archive is
/// compared with the model's.
pub fn verdict_of(records: &[Record]) -> (u8, Vec<u16>) {
    Archives::new().compare_records(records);
    let sheet = judged(&writer::log(records)).expect("a sheet");
    verdict_on(&sheet).expect("the form of a sheet")
}

/// The sheet must be the pattern's, byte for byte, and so must the excerpt.
fn compare_violation(log: &[u8], records: &[Record], violation: &Violation) {
    let sheet = violation_sheet(violation);
    assert_eq!(judged(log), Ok(sheet), "left: judged, of {}", show(log));
    match has_pending_remove(&operations(records)) {
        true => assert_no_excerpt(log, 32),
        false => compare_excerpt(log, records, violation),
    }
}

/// Asserts that there is no excerpt of the log, for this reason.
fn assert_no_excerpt(log: &[u8], number: u32) {
    let refusal = Err(refused(number, 0));
    assert_eq!(
        excerpt_made(log),
        refusal,
        "left: the excerpt of {}",
        show(log)
    );
}

/// An excerpt is "judged by itself when it is handed in as a log", and the pattern's number must be
/// the same.
fn compare_excerpt(log: &[u8], records: &[Record], violation: &Violation) {
    let kept = excerpted(records, violation);
    let excerpt = writer::log(&kept);
    assert_eq!(
        excerpt_made(log),
        Ok(excerpt.clone()),
        "left: the excerpt of {}",
        show(log)
    );
    let again = first_violation(&operations(&kept)).expect("a pattern of the excerpt");
    assert_eq!(again.number, violation.number, "of {}", show(&excerpt));
    assert_eq!(
        judged(&excerpt),
        Ok(violation_sheet(&again)),
        "left: judged, of the excerpt {}",
        show(&excerpt)
    );
}

/// The sheet must tell a legal order; which one is the judge's choice, but not over which operations:
/// those are told as the judge goes by them, an open remove as left out or as the remove of the value
/// that it took. Replay says yes to the order, and there is nothing to make an excerpt of.
fn compare_order(log: &[u8], operations: &[Operation], settled: &[Operation]) {
    let sheet = judged(log).unwrap_or_else(|refusal| panic!("{refusal:?} to {}", show(log)));
    let order = order_on(&sheet)
        .unwrap_or_else(|| panic!("{} is no order, of {}", show(&sheet), show(log)));
    assert!(
        is_linearization(operations, &order),
        "{order:?} is not legal for {}",
        show(log)
    );
    assert!(
        is_judged_order(settled, &order),
        "{order:?} is not one of the judge for {}",
        show(log)
    );
    assert_eq!(replay(log, &sheet), YES, "{order:?} for {}", show(log));
    match has_pending_remove(operations) {
        true => assert_no_excerpt(log, 32),
        false => assert_no_excerpt(log, 23),
    }
}
