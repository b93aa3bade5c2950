//! Every list over a small alphabet: a fixed beginning, then each choice of letters up to a depth,
//! then information calls, so that the records at the end show.

use std::io::{self, Write};

pub struct Alphabet {
    pub name: &'static str,
    start: &'static [&'static [u8]],
    letters: &'static [&'static [u8]],
    end: &'static [&'static [u8]],
}

#[rustfmt::skip]
pub const ALPHABETS: [Alphabet; 6] = [
    // Two jobs below the root, processes with bindings upward, kills and exits.
    Alphabet { name: "trees",
        start: &[&[0x01, 0, 2], &[0x01, 2, 1]],
        letters: &[
            &[0x03, 1, 0], &[0x03, 2, 1], &[0x07, 0, 2, 0], &[0x07, 0, 1, 1], &[0x07, 1, 0, 0],
            &[0x02, 1], &[0x02, 2], &[0x05, 0, 0, 0, 0, 0, 0, 0, 0, 0], &[0x06, 1],
            &[0x08, 0, 0], &[0x09, 0], &[0x0c, 0],
        ],
        end: &[&[0x1b, 0], &[0x1b, 1], &[0x1b, 2], &[0x1c, 0], &[0x1c, 1], &[0x1d, 0]],
    },
    // One process with two threads: starts, kills, exits and ends in every order.
    Alphabet { name: "lives",
        start: &[&[0x03, 0, 0], &[0x08, 0, 0], &[0x08, 0, 1]],
        letters: &[
            &[0x04, 0, 0], &[0x09, 0], &[0x09, 1], &[0x0a, 0], &[0x0b, 0], &[0x0c, 0], &[0x0c, 1],
            &[0x05, 0, 7, 0, 0, 0, 0, 0, 0, 0], &[0x1e, 2, 0], &[0x1f, 1, 0],
            &[0x14, 0, 0x08, 0x81],
        ],
        end: &[&[0x1d, 0], &[0x1d, 1], &[0x1c, 0]],
    },
    // A started thread in a plain wait, with every ready byte that matters.
    Alphabet { name: "waits",
        start: &[&[0x03, 0, 0], &[0x08, 0, 0], &[0x09, 0]],
        letters: &[
            &[0x19, 0, 0x03, 0x00], &[0x19, 0, 0x03, 0x02], &[0x1a, 0, 0], &[0x1a, 0, 1],
            &[0x1a, 0, 2], &[0x1a, 0, 4], &[0x1a, 0, 7], &[0x0a, 0], &[0x0b, 0], &[0x0c, 0],
            &[0x1e, 2, 0], &[0x1f, 2, 0], &[0x06, 0],
        ],
        end: &[&[0x1d, 0], &[0x1c, 0]],
    },
    // A started thread below a job: levels bound and hung up, second chance, closings, a kill.
    Alphabet { name: "exceptions",
        start: &[&[0x01, 0, 1], &[0x03, 1, 0], &[0x08, 0, 0], &[0x04, 0, 0], &[0x12, 1, 0]],
        letters: &[
            &[0x14, 0, 0x08, 0x00], &[0x15, 0], &[0x16, 0, 1, 0, 0, 0], &[0x17, 0, 1, 0, 0, 0],
            &[0x12, 2, 0], &[0x12, 3, 0], &[0x12, 4, 0], &[0x12, 5, 1], &[0x13, 1, 0],
            &[0x13, 3, 0], &[0x14, 0, 0x08, 0x83], &[0x14, 0, 0x08, 0x81], &[0x0a, 0],
        ],
        end: &[&[0x1d, 0], &[0x1c, 0]],
    },
    // Tokens and counts over a process with an old and a new thread.
    Alphabet { name: "tokens",
        start: &[&[0x03, 0, 0], &[0x08, 0, 0]],
        letters: &[
            &[0x0d, 0, 1, 0], &[0x0d, 1, 2, 0], &[0x0e, 0], &[0x0e, 1], &[0x08, 0, 1],
            &[0x1e, 1, 0], &[0x1f, 1, 0], &[0x1f, 2, 1], &[0x09, 0], &[0x0c, 0], &[0x0a, 1],
        ],
        end: &[&[0x1d, 0], &[0x1d, 1], &[0x1c, 0]],
    },
    // Policies and slack over three generations.
    Alphabet { name: "policies",
        start: &[],
        letters: &[
            &[0x0f, 0, 0, 1, 5, 1, 0, 0, 0, 0, 0, 0], &[0x0f, 1, 0, 2, 4, 1, 5, 0, 0, 0, 0, 0],
            &[0x0f, 1, 1, 2, 5, 2, 4, 0, 0, 0, 0, 0], &[0x0f, 2, 1, 1, 3, 4, 0, 0, 0, 0, 0, 0],
            &[0x01, 0, 1], &[0x01, 1, 2], &[0x03, 1, 0], &[0x03, 2, 1], &[0x02, 2],
            &[0x10, 1, 9, 0, 0, 0, 0, 0, 0, 0, 2], &[0x10, 1, 3, 0, 0, 0, 0, 0, 0, 0, 1],
        ],
        end: &[&[0x1b, 0], &[0x1b, 1], &[0x1b, 2], &[0x11, 0, 4], &[0x11, 0, 5], &[0x11, 1, 3]],
    },
];

/// Hands each list of at most `depth` letters to `write`.
pub fn lists(
    alphabet: &Alphabet,
    depth: usize,
    write: &mut impl FnMut(&[u8]) -> io::Result<()>,
) -> io::Result<()> {
    for letters in 0..=depth {
        let mut word = vec![0; letters];
        loop {
            write(&spell(alphabet, &word))?;
            if !advance(&mut word, alphabet.letters.len()) {
                break;
            }
        }
    }
    Ok(())
}

/// The next word of the same length in counting order; false after the last.
fn advance(word: &mut [usize], letters: usize) -> bool {
    for place in word.iter_mut().rev() {
        *place += 1;
        if *place < letters {
            return true;
        }
        *place = 0;
    }
    false
}

fn spell(alphabet: &Alphabet, word: &[usize]) -> Vec<u8> {
    let mut list = alphabet.start.concat();
    for letter in word {
        list.extend(alphabet.letters[*letter]);
    }
    list.extend(alphabet.end.concat());
    list
}

/// The names of the alphabets, for the usage text.
pub fn names(out: &mut impl Write) -> io::Result<()> {
    for alphabet in &ALPHABETS {
        writeln!(out, "  {} ({} letters)", alphabet.name, alphabet.letters.len())?;
    }
    Ok(())
}
