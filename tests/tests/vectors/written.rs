//! Lines of the entries that write: judge, excerpt, narrow and page.

use yauponroof_tests::hex::digits;
use yauponroof_tests::library::guarded::written_twice;
use yauponroof_tests::library::{excerpt, judge, narrow, page};
use yauponroof_tests::Outcome;

use crate::answers::{is_as_good, is_upheld, refusal, same, Agreement};
use crate::lines::{bytes, Line};

pub fn play_judge(line: &Line) -> Agreement {
    let log = line.log();
    let outcome = written_twice(line.lent(), |sheet| judge(&log, sheet));
    if let Ok(sheet) = &outcome {
        is_upheld(&log, sheet)?;
    }
    match (&outcome, line.answer.strip_prefix("wrote ")) {
        (Ok(sheet), Some(told)) if line.any_order => is_as_good(&log, sheet, &bytes(told)),
        _ => same(&wrote(&outcome), line.answer),
    }
}

pub fn play_excerpt(line: &Line) -> Agreement {
    let outcome = written_twice(line.lent(), |out| excerpt(&line.log(), out));
    same(&wrote(&outcome), line.answer)
}

pub fn play_narrow(line: &Line) -> Agreement {
    let value = |four: &[u8]| u32::from_be_bytes(four.try_into().expect("four bytes"));
    let values: Vec<u32> = bytes(line.field(1)).chunks(4).map(value).collect();
    let outcome = written_twice(line.lent(), |out| narrow(&line.log(), &values, out));
    same(&wrote(&outcome), line.answer)
}

pub fn play_page(line: &Line) -> Agreement {
    let outcome = written_twice(line.lent(), |out| page(&line.log(), out));
    same(&wrote(&outcome), line.answer)
}

fn wrote(outcome: &Outcome) -> String {
    match outcome {
        Ok(written) => format!("wrote {}", digits(written)),
        Err(answer) => refusal(answer),
    }
}
