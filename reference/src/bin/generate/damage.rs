//! Damaged files: valid lists that are cut, flipped, stretched or shuffled, and bytes of no sense.

use crate::layout::length;
use crate::list;
use crate::profile;
use crate::rng::Rng;
use reference::commands::{decode, Decoded};

/// One damaged file.
pub fn build(rng: &mut Rng) -> Vec<u8> {
    let mut file = match rng.below(10) {
        0 => noise(rng),
        1 => commands_with_noise(rng),
        _ => damaged_list(rng),
    };
    avoid_later_commands(&mut file);
    file
}

/// Bytes 20 to 2f are kept for later requests, so a file that would stop at one stops at ff.
fn avoid_later_commands(file: &mut [u8]) {
    let mut place = 0;
    while let Decoded::Whole(_, length) = decode(&file[place..]) {
        place += length;
    }
    if place < file.len() && (0x20..0x30).contains(&file[place]) {
        file[place] = 0xff;
    }
}

/// Bytes without any order.
fn noise(rng: &mut Rng) -> Vec<u8> {
    let bytes = rng.below(80);
    (0..bytes).map(|_| rng.byte()).collect()
}

/// Known commands whose operands are small random bytes.
fn commands_with_noise(rng: &mut Rng) -> Vec<u8> {
    let mut file = Vec::new();
    for _ in 0..rng.between(5, 60) {
        let command = rng.between(1, 0x1f) as u8;
        file.push(command);
        for _ in 1..length(command).unwrap_or(1) {
            file.push(rng.below(5) as u8);
        }
    }
    file
}

fn damaged_list(rng: &mut Rng) -> Vec<u8> {
    let profile = profile::profile("mixed", rng).unwrap_or(&profile::PROFILES[0]);
    let calls = rng.between(5, 40);
    let mut file = list::build(rng, profile, calls);
    for _ in 0..rng.between(1, 3) {
        damage(rng, &mut file);
    }
    file
}

fn damage(rng: &mut Rng, file: &mut Vec<u8>) {
    if file.is_empty() {
        return;
    }
    let place = rng.below(file.len());
    match rng.below(7) {
        0 => file.truncate(place),
        1 => file[place] ^= 1 << rng.below(8),
        2 => file[place] = rng.byte(),
        3 => file.insert(place, rng.byte()),
        4 => {
            file.remove(place);
        }
        5 => repeat_piece(rng, file, place),
        _ => file.extend(list::stop_tail(rng)),
    }
}

/// A piece of the file stands twice.
fn repeat_piece(rng: &mut Rng, file: &mut Vec<u8>, place: usize) {
    let end = (place + rng.between(1, 12)).min(file.len());
    let piece = file[place..end].to_vec();
    file.splice(place..place, piece);
}
