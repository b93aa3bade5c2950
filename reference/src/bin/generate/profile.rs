//! What a list is about: how often each command is tried, how often the operands are chosen with
//! an eye on the records, and how often a call is spoiled. `mixed` picks one of the first six.

use crate::rng::Rng;

pub struct Profile {
    pub name: &'static str,
    /// Of 100 calls, those whose operands suit the state; the rest take any made names.
    pub aimed: usize,
    /// Of 100 calls, those with one or two operands made bad.
    pub spoiled: usize,
    /// Of 100 lists, those that begin with a chain of jobs.
    pub chained: usize,
    /// The weights of commands 01 to 1f.
    pub weights: [usize; 31],
}

#[rustfmt::skip]
pub const PROFILES: [Profile; 8] = [
    // Deep trees with critical bindings upward, killed at every height.
    Profile { name: "trees", aimed: 58, spoiled: 11, chained: 40, weights: [
    //  01  02  03  04  05  06  07  08  09  0a  0b  0c  0d  0e  0f  10
        22,  6, 18,  4,  7,  5, 16,  7,  5,  2,  1,  6,  1,  1,  2,  1,
    //  11  12  13  14  15  16  17  18  19  1a  1b  1c  1d  1e  1f
         1,  2,  1,  1,  1,  1,  1,  1,  1,  1, 10, 12,  4,  1,  1,
    ]},
    // All five levels, hang-ups, second chance, kills while an exception waits.
    Profile { name: "exceptions", aimed: 70, spoiled: 8, chained: 15, weights: [
         6,  1,  5,  2,  1,  1,  1,  6, 10,  4,  3,  2,  1,  1,  1,  1,
         1, 34,  8, 34, 40,  9, 14,  6,  1,  1,  2,  4, 12,  2,  1,
    ]},
    // Plain waits: begun, polled with each ready byte, killed in the middle.
    Profile { name: "waits", aimed: 70, spoiled: 8, chained: 0, weights: [
         3,  1,  4,  3,  2,  2,  1, 10, 14,  8,  3,  3,  2,  2,  1,  1,
         1,  3,  1,  5,  3,  1,  1,  1, 26, 34,  1,  4, 12,  3,  3,
    ]},
    // Suspends and resumes at every state, tokens over new threads.
    Profile { name: "suspends", aimed: 60, spoiled: 9, chained: 0, weights: [
         2,  1,  5,  3,  2,  1,  1, 14, 10,  5,  3,  4, 14, 14,  1,  1,
         1,  4,  1,  5,  3,  1,  1,  1,  6,  6,  1,  3, 16, 16, 14,
    ]},
    // Policies and slack, set before the children are made, and asked of their processes.
    Profile { name: "policies", aimed: 58, spoiled: 10, chained: 0, weights: [
        20,  4, 12,  1,  3,  2,  1,  1,  1,  1,  1,  1,  1,  1, 34, 14,
        22,  1,  1,  1,  1,  1,  1,  1,  1,  1, 16,  3,  1,  1,  1,
    ]},
    // Bad fields, bad names and calls out of turn, several at once.
    Profile { name: "refusals", aimed: 50, spoiled: 40, chained: 0, weights: [
         8,  2,  8,  5,  3,  2,  5, 10, 10,  3,  3,  3,  6,  5,  5,  4,
         4,  8,  4,  8,  4,  4,  4,  4,  5,  5,  3,  3,  5,  5,  5,
    ]},
    // For the bench: records are made, and then asked about.
    Profile { name: "information", aimed: 70, spoiled: 1, chained: 0, weights: [
         2,  1,  2,  1,  1,  1,  1,  3,  2,  1,  1,  1,  1,  1,  1,  1,
         1,  1,  1,  1,  1,  1,  1,  1,  1,  1,160,160,160,  1,  1,
    ]},
    // For the bench: records are made, killed, and killed again.
    Profile { name: "kills", aimed: 20, spoiled: 1, chained: 0, weights: [
         6, 80,  6,  2, 20, 60,  4, 10,  8, 80,  2,  2,  1,  1,  1,  1,
         1,  1,  1,  1,  1,  1,  1,  1,  1,  1,  1,  1,  1,  1,  1,
    ]},
];

/// How many of them `mixed` picks from.
const MIXED: usize = 6;

/// The profile of that name; `mixed` picks by chance. `None` if there is none.
pub fn profile(name: &str, rng: &mut Rng) -> Option<&'static Profile> {
    if name == "mixed" {
        return Some(&PROFILES[rng.below(MIXED)]);
    }
    PROFILES.iter().find(|profile| profile.name == name)
}
