//! Spoils a chosen call: a field outside its list, a name past its table, unmade or used.

use crate::choose::Chooser;
use crate::layout::{operands, Operand};

impl Chooser<'_> {
    /// In the profile's share of cases one operand is made bad, or two, so that the order of
    /// the refusals shows.
    pub fn maybe_spoil(&mut self, mut call: Vec<u8>) -> Vec<u8> {
        if !self.rng.chance(self.profile.spoiled) {
            return call;
        }
        self.spoil_one(&mut call);
        if self.rng.chance(35) {
            self.spoil_one(&mut call);
        }
        call
    }

    fn spoil_one(&mut self, call: &mut [u8]) {
        let list = operands(call[0]).unwrap_or(&[]);
        let chosen = self.rng.below(list.len());
        let place: usize = 1 + list[..chosen].iter().map(|operand| operand.width()).sum::<usize>();
        let operand = list[chosen];
        if operand.width() == 1 {
            call[place] = self.bad_byte(operand, call[place - 1], call[place]);
        } else if matches!(operand, Operand::Type | Operand::WaitState) {
            self.spoil_half(&mut call[place..place + 2]);
        }
    }

    /// A type or wait state outside its list, often close to one inside.
    fn spoil_half(&mut self, half: &mut [u8]) {
        match self.rng.below(3) {
            0 => half[0] ^= 1 << self.rng.below(8),
            1 => half[1] ^= 1 << self.rng.below(8),
            _ => {
                half[0] = self.rng.byte();
                half[1] = self.rng.byte();
            }
        }
    }

    /// A byte that the operand does not allow: past its list or table, unmade, or used.
    fn bad_byte(&mut self, operand: Operand, before: u8, old: u8) -> u8 {
        let (table, other) = match operand {
            Operand::Job => (32, self.view.free_jobs()),
            Operand::Process => (64, self.view.free_processes()),
            Operand::Thread => (128, self.view.free_threads()),
            Operand::Token => (64, self.unheld_tokens()),
            Operand::NewJob => (32, self.view.jobs(|_| true)),
            Operand::NewProcess => (64, self.view.processes(|_| true)),
            Operand::NewThread => (128, self.view.threads(|_| true)),
            Operand::NewToken => (64, self.used_tokens()),
            Operand::KindName if before == 0 => (32, self.view.free_jobs()),
            Operand::KindName if before == 1 => (64, self.view.free_processes()),
            Operand::KindName => (128, self.view.free_threads()),
            Operand::LevelOwner if before == 2 => (128, self.view.free_threads()),
            Operand::LevelOwner if before > 3 => (32, self.view.free_jobs()),
            Operand::LevelOwner => (64, self.view.free_processes()),
            Operand::Level => return self.rng.pick(&[0, 6, 7, 255]).unwrap_or(0),
            Operand::Kind | Operand::Mode => (3, Vec::new()),
            Operand::Flag | Operand::Choice => (2, Vec::new()),
            Operand::Condition => (15, Vec::new()),
            Operand::Action => (5, Vec::new()),
            Operand::Ready => (8, Vec::new()),
            _ => return old,
        };
        if !other.is_empty() && self.rng.chance(60) {
            return self.pick(other).unwrap_or(old);
        }
        // Just past the end, or far past it.
        if self.rng.chance(50) { table } else { self.rng.between(table as usize, 255) as u8 }
    }

    /// Tokens never made or dropped.
    fn unheld_tokens(&self) -> Vec<u8> {
        let held = self.view.tokens();
        (0..64).filter(|token| !held.contains(token)).collect()
    }

    fn used_tokens(&self) -> Vec<u8> {
        let free = self.view.free_tokens();
        (0..64).filter(|token| !free.contains(token)).collect()
    }
}
