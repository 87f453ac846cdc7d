//! The judge and the excerpt on simulated runs of a correct queue, of up to 1,024 records, into
//! which operations with one fault are put, at the start, late or far apart: the pattern of the
//! fault must be told. Which operations it lists is held against the table. Pattern 6 in the middle
//! of a run has tests of its own, `empty_removes` and `chains`.

use yauponroof_tests::compare::archive::Archives;
use yauponroof_tests::logs::insertion::with_run;
use yauponroof_tests::logs::simulation::{simulate_load, Clients, Load};
use yauponroof_tests::model::reader::MAX_RECORDS;
use yauponroof_tests::model::record::Record;
use yauponroof_tests::model::sheet::ORDER;
use yauponroof_tests::random::Random;

/// Runs in two parts that are sound or have one pattern. Values of the queue they are put into are
/// all removed, so that none of these is stuck.
const PUT_IN: [(u8, [&str; 2]); 19] = [
    (ORDER, ["A0(", "A0) R( R0)"]),
    (ORDER, ["R(", "A0( R0) A0)"]),
    (ORDER, ["A0(", "R( R0)"]),
    (ORDER, ["A0( A1(", ""]),
    (1, ["", "R( R0)"]),
    (1, ["R(", "R0)"]),
    (1, ["A0(", "R( R1)"]),
    (2, ["A0( A0) Ra( Ra0)", "Rb( Rb0)"]),
    (2, ["A0( Ra( Rb(", "Ra0) Rb0)"]),
    (3, ["R( R0)", "A0( A0)"]),
    (3, ["R( R0)", "A0("]),
    (3, ["R(", "R0) A0("]),
    (4, ["A0( A0) A1( A1)", "R( R1)"]),
    (4, ["A0( A0) A1(", "R( R1)"]),
    (4, ["A0( A0) R(", "A1( A1) R1)"]),
    (4, ["A0( A0)", "A1( R( R1)"]),
    (5, ["A0( A0) A1( A1)", "R( R1) R( R0)"]),
    (5, ["A0( A0) A1(", "R( R1) R( R0)"]),
    (5, ["A0( A0) Rb(", "A1( A1) Rb1) Ra( Ra0)"]),
];

/// Sound runs at the end of which the queue is empty, with room for what is put in.
fn sound_runs() -> Vec<Vec<Record>> {
    let mut random = Random::new(87);
    let mut runs = vec![Vec::new()];
    for load in [Load::Even, Load::Busy] {
        for workers in [1, 3, 8, 64] {
            for n in [10, 60, 300, 860] {
                let run = simulate_load(load, workers, Clients::Reused, n, random.next_u64());
                runs.push(run.drained().records);
            }
        }
    }
    runs
}

/// Where the two parts are put: at the start, at the end, far apart, and by chance.
fn places(length: usize, random: &mut Random) -> Vec<(usize, usize)> {
    let mut places = vec![(0, 0), (length, length), (0, length)];
    for _ in 0..3 {
        let first = random.below(length + 1);
        places.push((first, first + random.below(length + 1 - first)));
    }
    places
}

#[test]
fn the_pattern_of_the_fault_is_told() {
    let mut random = Random::new(88);
    let mut archives = Archives::new();
    for (expected, [first, second]) in PUT_IN {
        for sound in sound_runs() {
            for (from, to) in places(sound.len(), &mut random) {
                let records = with_run(&sound, &[(from, first), (to, second)]);
                assert!(records.len() <= MAX_RECORDS, "{} records", records.len());
                let verdict = archives.compare_records(&records);
                let put_in = format!("{first} at {from}, {second} at {to} of {}", sound.len());
                // What is sound by itself need not be so among others, but for the patterns of
                // single values.
                match expected {
                    ORDER => assert!(verdict == ORDER || verdict >= 4, "{verdict}: {put_in}"),
                    _ => assert_eq!(verdict, expected, "{put_in}"),
                }
            }
        }
    }
    archives.assert_at_least([600, 590, 390, 590, 790, 590, 0]);
}

#[test]
fn a_false_empty_remove_at_the_start_or_at_the_end_is_told() {
    let put_in = [
        "A0( A0) Re( Re-) Ra( Ra0)",
        "A0( A0) Re( A1( A1) Ra( Ra0) Re-) Rb( Rb1)",
        "A0( A1( A0) A1) Rc( Re( Rc0) Re-) Rb( Rb1)",
    ];
    let mut archives = Archives::new();
    for sound in sound_runs() {
        for text in put_in {
            for at in [0, sound.len()] {
                let verdict = archives.compare_records(&with_run(&sound, &[(at, text)]));
                assert_eq!(verdict, 6, "{text} at {at} of {}", sound.len());
            }
        }
    }
    assert_eq!(archives.seen(), [0, 0, 0, 0, 0, 0, 33 * 6]);
}
