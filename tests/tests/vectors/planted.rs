//! Wrong answers that are planted in lines are noticed, whatever the entry; right ones are taken.

use yauponroof_tests::hex::digits;
use yauponroof_tests::logs::notation::run;
use yauponroof_tests::logs::samples::pending_adds;
use yauponroof_tests::model::writer::log;

use crate::every_line::play;
use crate::lines::Line;

/// Two removes at once that find nothing: both orders are legal.
fn two_removes() -> String {
    digits(&log(&run("Ra( Rb( Ra-) Rb-)")))
}

/// A remove finds nothing, although 1 is in the queue.
fn false_empty() -> String {
    digits(&log(&run("A1( A1) R( R-)")))
}

/// Asserts that these answers to the request are taken, and these noticed.
fn assert_noticed(request: &str, right: &[&str], wrong: &[&str]) {
    let is_taken = |answer: &&str| {
        let text = format!("0-14 {request} => {answer}");
        let agreement = play(&Line::parse(&text)).expect("an entry that is played");
        agreement.is_ok()
    };
    let refused: Vec<_> = right.iter().filter(|answer| !is_taken(answer)).collect();
    let taken: Vec<_> = wrong.iter().filter(|answer| is_taken(answer)).collect();
    assert!(refused.is_empty(), "right for {request}: {refused:?}");
    assert!(taken.is_empty(), "wrong for {request}: {taken:?}");
}

#[test]
fn of_the_judge() {
    assert_noticed(
        &format!("judge {}", two_removes()),
        &["wrote 0100000200000001", "wrote 0100000200010000 ?"],
        &[
            "wrote 0100000200010000",
            "wrote 0100000200000000 ?",
            "wrote 010000010000 ?",
            "refused 1 0",
        ],
    );
    assert_noticed(
        &format!("judge {} - 7", two_removes()),
        &["refused 24 0"],
        &["wrote 0100000200000001", "refused 24 1"],
    );
    assert_noticed(
        &format!("judge {}", false_empty()),
        &["wrote 0106000200010000"],
        &["wrote 0106000200010000 ?", "wrote 0100000200010000 ?"],
    );
}

#[test]
fn of_excerpts_and_narrowings() {
    assert_noticed(
        &format!("excerpt {}", false_empty()),
        &[&format!("wrote {}", false_empty())],
        &["wrote .", "wrote 010000", "refused 23 0"],
    );
    assert_noticed(
        &format!("narrow {} 00000002", false_empty()),
        &["wrote 010000"],
        &["wrote 01000000", "refused 23 0"],
    );
    assert_noticed(
        &format!("narrow {} 00000002 - 2", false_empty()),
        &["refused 24 0"],
        &["wrote 010000"],
    );
}

/// An add of 1, a remove that never returned, and one that found nothing: the open one took 1.
fn open_remove() -> String {
    digits(&log(&run("A1( A1) Ro( R( R-)")))
}

#[test]
fn of_a_log_with_an_open_remove() {
    assert_noticed(
        &format!("judge {}", open_remove()),
        &["wrote 01000003000000010002", "wrote 01000003000000010002 ?"],
        &[
            "wrote 01000003000000020001 ?",
            "wrote 0100000200000002 ?",
            "wrote 0106000200020000",
            "refused 10 2",
        ],
    );
    assert_noticed(
        &format!("excerpt {}", open_remove()),
        &["refused 32 0"],
        &[
            "refused 23 0",
            "refused 10 2",
            "refused 32 2",
            "wrote 010000",
        ],
    );
    let (legal, illegal) = ("01000003000000010002", "01000003000000020001");
    assert_noticed(
        &format!("replay {} {legal}", open_remove()),
        &["yes"],
        &["no", "refused 10 2"],
    );
    assert_noticed(
        &format!("replay {} {illegal}", open_remove()),
        &["no"],
        &["yes"],
    );
}

/// A line of a page, as the vectors write bytes.
fn line(number: char, label: &str, columns: &str) -> String {
    let text = format!("   {number} {label:<11} {columns:<63}\n");
    digits(text.as_bytes())
}

#[test]
fn of_pages() {
    let add = line('0', "A1", "##..");
    let remove = line('1', "E", "..##");
    assert_noticed(
        &format!("page {}", false_empty()),
        &[&format!("wrote {add}{remove}")],
        &[
            &format!("wrote {remove}{add}"),
            &format!("wrote {add}"),
            &format!("wrote {add}{}", line('1', "R", "..##")),
            &format!("wrote {add}{}", line('1', "E", "..#.")),
            &format!("wrote {add}{remove}00"),
            "wrote .",
            "refused 24 0",
            "refused 30 0",
        ],
    );
    assert_noticed(
        &format!("page {} - 161", false_empty()),
        &["refused 24 0"],
        &[&format!("wrote {add}{remove}"), "refused 24 1"],
    );
    assert_noticed("page 010000 - 0", &["wrote ."], &["refused 24 0"]);
    let long = digits(&log(&pending_adds(64)));
    assert_noticed(
        &format!("page {long} - 0"),
        &["refused 30 0"],
        &["refused 24 0", "refused 30 63", "wrote ."],
    );
}

#[test]
fn of_replay() {
    assert_noticed(
        &format!("replay {} 0100000200010000", two_removes()),
        &["yes"],
        &["no", "refused 11 0"],
    );
}

#[test]
fn of_the_program() {
    assert_noticed(
        &format!("program {}", two_removes()),
        &[
            "log 4 records 2 operations / order 0 1",
            "log 4 records 2 operations / order 1 0 ?",
        ],
        &[
            "log 4 records 2 operations / order 1 0",
            "log 4 records 2 operations / order 0 0 ?",
            "log 4 records 2 operations / order 0 ?",
            "log 4 records 1 operations / order 1 0 ?",
            "log 4 records 2 operations",
            "refused 1 0",
        ],
    );
}

#[test]
fn of_sessions() {
    assert_noticed(
        "session len:3 begin close:3 close",
        &["begin 3; close refused 24 0; close 01000000; state 1 3 -,-,-,-,-,-,-,- 010000"],
        &[
            "begin 3; close refused 24 0; state 1 3 -,-,-,-,-,-,-,- 010000",
            "begin 3; close refused 24 1; close 01000000; state 1 3 -,-,-,-,-,-,-,- 010000",
            "begin 3; close refused 24 0; close 010000010000; state 1 3 -,-,-,-,-,-,-,- 010000",
            "begin 3; close refused 24 0; close 01000000; state 0 3 -,-,-,-,-,-,-,- 010000",
            "begin 3; close refused 24 0; close 01000000; state 1 3 -,-,-,-,-,-,-,- 010001",
        ],
    );
}

#[test]
fn of_sessions_with_another_order() {
    let log = two_removes();
    let feed = |record: usize| format!("feed:{}", &log[6 + 16 * record..][..16]);
    let feeds = [0, 1, 2, 3].map(feed).join(" ");
    let answers = |sheet| {
        let fed = "feed 8; feed 8; feed 8; feed 8";
        format!("begin 3; {fed}; close {sheet}; state 1 35 -,-,-,-,-,-,-,- {log}")
    };
    assert_noticed(
        &format!("session len:35 begin {feeds} close"),
        &[
            &answers("0100000200000001"),
            &(answers("0100000200010000") + " ?"),
        ],
        &[
            &answers("0100000200010000"),
            &(answers("010000010000") + " ?"),
            &(answers("0100000200010000") + "aa ?"),
        ],
    );
}
