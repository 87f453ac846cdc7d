//! The verdict on a readable log, and the sheet and the excerpt that tell it.

use crate::model::history::{has_pending_remove, operations, Operation};
use crate::model::judgement::{judgement, Judgement};
use crate::model::linearization::{
    is_linearization, judged_operations, lists_what_the_judge_lists,
};
use crate::model::projection::excerpted;
use crate::model::record::Record;
use crate::model::search::has_linearization;
use crate::model::sheet::{self, order_on, violation_sheet};
use crate::model::writer;
use crate::{refused, Answer, Outcome};

/// A readable log with the verdict on it.
#[derive(Clone, Debug)]
pub struct JudgedLog {
    records: Vec<Record>,
    operations: Vec<Operation>,
    judgement: Judgement,
}

impl JudgedLog {
    /// The log of these records, judged by the table of patterns and, where it is short, by the
    /// search for an order as well.
    pub fn of(records: Vec<Record>) -> JudgedLog {
        // The search is quick for so few operations.
        const FEW: usize = 10;
        let operations = operations(&records);
        let judgement = judgement(&operations);
        if operations.len() <= FEW {
            let has_order = matches!(judgement, Judgement::Order(_));
            assert_eq!(has_order, has_linearization(&operations));
        }
        JudgedLog {
            records,
            operations,
            judgement,
        }
    }

    /// Whether this sheet tells the verdict. Which order is listed is left to the library.
    pub fn is_told_by(&self, sheet: &[u8]) -> bool {
        match (&self.judgement, order_on(sheet)) {
            (Judgement::Pattern(violation), _) => sheet == violation_sheet(violation),
            (Judgement::Order(settled), Some(order)) => {
                is_linearization(&self.operations, &order) && is_judged_order(settled, &order)
            }
            (Judgement::Order(_), None) => false,
        }
    }

    /// How many operations the sheet lists.
    fn listed(&self) -> usize {
        match &self.judgement {
            Judgement::Pattern(violation) => violation.operations.len(),
            Judgement::Order(settled) => judged_operations(settled).len(),
        }
    }

    /// 24, unless a buffer of that length is long enough for the sheet.
    pub fn fits(&self, room: usize) -> Result<(), Answer> {
        match room < self.sheet_length() {
            true => Err(refused(24, 0)),
            false => Ok(()),
        }
    }

    pub fn sheet_length(&self) -> usize {
        sheet::HEADER + 2 * self.listed()
    }

    /// The excerpt, or its refusal. "It refuses with 32 an excerpt of a log with an open remove,
    /// before 23", whatever the verdict is.
    pub fn excerpt(&self) -> Outcome {
        if has_pending_remove(&self.operations) {
            return Err(refused(32, 0));
        }
        match &self.judgement {
            Judgement::Pattern(violation) => Ok(writer::log(&excerpted(&self.records, violation))),
            Judgement::Order(_) => Err(refused(23, 0)),
        }
    }
}

/// Whether the order is one of the judge's for operations of which no remove's fate is open: it is
/// legal and lists what it has to.
pub fn is_judged_order(settled: &[Operation], order: &[u16]) -> bool {
    lists_what_the_judge_lists(settled, order) && is_linearization(settled, order)
}
