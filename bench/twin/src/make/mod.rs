//! Making files of calls from a seed.

pub mod edges;
pub mod fixed;
pub mod frames;
pub mod judged;
pub mod records;
pub mod rng;
pub mod tape;
pub mod traffic;
pub mod wheels;

use std::io::{self, Write};

use rng::Rng;
use tape::Tape;

/// A way to fill a tape with calls.
type Maker = fn(&mut Tape<'_>, &mut Rng);

/// The kinds of files that are compared, by name.
pub const KINDS: [(&str, Maker); 10] = [
    ("valid", traffic::valid),
    ("valid-runs", traffic::valid_runs),
    ("ticks", traffic::ticks),
    ("damaged", traffic::damaged),
    ("noise", traffic::noise),
    ("stops", traffic::stops),
    ("judged", judged::judged),
    ("records", records::records),
    ("rooms", edges::rooms),
    ("writer", edges::writer),
];

/// Makes a file of a kind: so many calls from this seed. Says whether there is
/// such a kind.
pub fn make(kind: &str, seed: u64, count: u64, out: &mut dyn Write) -> io::Result<bool> {
    let mut rng = Rng::new(seed);
    if let Some((_, maker)) = KINDS.iter().find(|(name, _)| *name == kind) {
        let mut tape = Tape::new(out, count);
        maker(&mut tape, &mut rng);
        return tape.finish().map(|()| true);
    }
    fixed::make(kind, &mut rng, count, out)
}
