//! Lines of the program: it is run with the bytes of the request on its standard input.

use std::io::Write;
use std::path::{Path, PathBuf};
use std::process::{Command, Stdio};

use yauponroof_tests::model::sheet::sheet;

use crate::answers::{is_as_good, is_upheld, same, Agreement};
use crate::lines::{bytes, number, Line};

/// The program takes this many bytes of its input as the log.
pub const INPUT_MAX: usize = 12_292;

pub fn play_program(line: &Line) -> Agreement {
    let printed = printed(&bytes(line.field(0)))?;
    let (given, told) = (order_in(&printed), order_in(line.answer));
    if let Some(given) = &given {
        is_upheld(&line.log(), given)?;
    }
    match (given, told) {
        (Some(given), Some(told)) if line.any_order => {
            same(counts_in(&printed), counts_in(line.answer))?;
            is_as_good(&line.log(), &given, &told)
        }
        _ => same(&printed, line.answer),
    }
}

/// The lines that the program prints for this input, as the vectors join them.
fn printed(input: &[u8]) -> Result<String, String> {
    let program = program();
    let mut running = Command::new(&program)
        .stdin(Stdio::piped())
        .stdout(Stdio::piped())
        .spawn()
        .unwrap_or_else(|error| panic!("{} does not run: {error}", program.display()));
    // Bytes that the program does not take cannot all be written.
    let _ = running.stdin.take().expect("its input").write_all(input);
    let output = running.wait_with_output().expect("its output");
    let text = String::from_utf8(output.stdout).map_err(|_| "the program prints no text")?;
    match (output.status.success(), text.strip_suffix('\n')) {
        (true, Some(lines)) => Ok(lines.replace('\n', " / ")),
        _ => Err(format!(
            "{} after the program printed {text:?}",
            output.status
        )),
    }
}

/// The gate builds the program before it runs the tests. It is not left out: where it is missing,
/// the test fails.
fn program() -> PathBuf {
    let path = Path::new(env!("CARGO_MANIFEST_DIR")).join("../crates/judge_cli/out/judge_cli");
    assert!(
        path.is_file(),
        "{} is missing; `rt run` in crates/judge_cli makes it",
        path.display()
    );
    path
}

/// The first line: how many records and operations the log has.
fn counts_in(lines: &str) -> &str {
    lines.split(" / ").next().unwrap_or("")
}

/// The sheet of the order on the second line, if there is one.
fn order_in(lines: &str) -> Option<Vec<u8>> {
    let (_, second) = lines.split_once(" / ")?;
    let numbers = second.strip_prefix("order")?.split_whitespace();
    let order: Vec<u16> = numbers.map(number).collect();
    Some(sheet(&order))
}
