//! Deep sections: strays, faulty paragraphs and lawful ones at levels that are gone through in turn.

use crate::cases::records::Draft;
use crate::cases::{nests, strays};
use crate::random::Random;

/// Of so many deep sections the first have one stray; one more has two strays, three have a faulty paragraph, two are
/// lawful. Each fits the lister.
const ROUND: usize = 9;
const ONE: usize = 3;

/// The deep section with this number, and the ids of the fields of its paragraphs.
pub fn section(random: &mut Random, which: usize) -> (Vec<Draft>, Vec<u32>) {
    let (round, nth) = (which / ROUND, which % ROUND);
    match nth {
        0..ONE => {
            let strays = strays::at_edges();
            let (way, level) = strays[(ONE * round + nth) % strays.len()];
            (strays::one(random, way, level), Vec::new())
        }
        3 => (strays::two(random), Vec::new()),
        4..=6 => nests::faulty(random, 3 * round + nth - 4),
        _ if random.once_in(4) => (nests::whole(random), Vec::new()),
        _ => nests::lawful(random),
    }
}
