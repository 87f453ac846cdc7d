//! The landed level: the number of the last change of document 02 that this repository has.

use std::path::Path;

/// Each change has a note in docs/changes whose name begins with its number.
pub fn landed_level() -> u32 {
    let notes = Path::new(env!("CARGO_MANIFEST_DIR")).join("../docs/changes");
    let notes = std::fs::read_dir(&notes).expect("the notes of the changes");
    let names = notes.map(|note| note.expect("a note").file_name());
    let names: Vec<String> = names.filter_map(|name| name.into_string().ok()).collect();
    highest(names.iter().map(String::as_str))
}

/// The highest NN of the names NN-WHAT.md, with two digits; 0 if there is none.
fn highest<'a>(names: impl Iterator<Item = &'a str>) -> u32 {
    names.filter_map(number_of).max().unwrap_or(0)
}

fn number_of(name: &str) -> Option<u32> {
    let (number, what) = name.split_once('-')?;
    let is_number = number.len() == 2 && number.bytes().all(|byte| byte.is_ascii_digit());
    let is_note = is_number && what.len() > ".md".len() && what.ends_with(".md");
    is_note.then(|| number.parse().expect("two digits"))
}

#[test]
fn notes_of_changes_tell_the_level() {
    let level = |names: &[&str]| highest(names.iter().copied());
    assert_eq!(level(&[]), 0);
    assert_eq!(level(&["after-00-mathematics.md"]), 0);
    assert_eq!(level(&["02-no-table.md", "01-page.md"]), 2);
    assert_eq!(
        level(&["09-compare.md", "10-plain.md", "after-12-map.md"]),
        10
    );
    let others = [
        "3-ticks.md",
        "004-cells.md",
        "05-page.txt",
        "06.md",
        "07-.md",
        "+8-x.md",
    ];
    assert_eq!(level(&others), 0);
}
