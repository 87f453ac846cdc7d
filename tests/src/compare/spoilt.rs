//! Samples spoilt by chance in one place, with a count of replay's answers for each way to do so.

use crate::compare::replay::Replays;
use crate::random::Random;

/// One way to make something spoilt of a sample.
pub struct Way<Sample, Spoilt> {
    name: &'static str,
    spoil: Spoil<Sample, Spoilt>,
    yes: u64,
    no: u64,
}

/// None if the sample has nothing to spoil in this way.
pub type Spoil<Sample, Spoilt> = fn(&Sample, &mut Random) -> Option<Spoilt>;

impl<Sample, Spoilt> Way<Sample, Spoilt> {
    /// A way of that name to spoil samples. Replay is to say yes and no at least so often.
    pub const fn new(name: &'static str, spoil: Spoil<Sample, Spoilt>, yes: u64, no: u64) -> Self {
        Way {
            name,
            spoil,
            yes,
            no,
        }
    }
}

/// How often each sample is spoilt in each way.
const TIMES: usize = 10;

/// Spoils all samples in all ways and compares replay's answers. `as_bytes` gives the log and the
/// sheet that a sample and what was made of it stand for.
pub fn compare_spoilt<Sample, Spoilt>(
    samples: &[Sample],
    ways: &[Way<Sample, Spoilt>],
    as_bytes: impl Fn(&Sample, &Spoilt) -> (Vec<u8>, Vec<u8>),
) {
    let mut random = Random::new(42);
    for way in ways {
        // Shown if an assertion fails.
        println!("{}", way.name);
        let mut replays = Replays::new();
        for sample in samples {
            for spoilt in (0..TIMES).filter_map(|_| (way.spoil)(sample, &mut random)) {
                let (log, sheet) = as_bytes(sample, &spoilt);
                replays.compare(&log, &sheet);
            }
        }
        replays.assert_answered(way.yes, way.no);
    }
}
