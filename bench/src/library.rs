//! The two solving calls of include/airtable.h, with buffers that are kept from call to
//! call, so that nothing is allocated while a call is timed.

use solver::calls::{Buffers, Given};
use solver::header::{airtable_solve_given, airtable_solve_rule};
use solver::listing::buffers;
use solver::Mode;

/// The lent buffers, with what the last call handed back.
pub struct Library {
    pub moves: Vec<u8>,
    pub marks: Vec<u8>,
    pub station: Vec<u8>,
    pub outside: Vec<u8>,
    pub number: u8,
    pub can: u8,
    pub n: usize,
    pub round: usize,
}

/// The mode as the header's number.
fn mode_byte(mode: Mode) -> u8 {
    match mode {
        Mode::Fair => 0,
        Mode::Stable => 1,
    }
}

impl Library {
    /// Buffers for every automaton with i and o, as they lie in a caller's fixed arrays.
    pub fn new(i: usize, o: usize) -> Library {
        let Buffers { moves, marks, station, outside } = buffers(i, o);
        Library { moves, marks, station, outside, number: 0, can: 0, n: 0, round: 0 }
    }

    /// No buffers, with which a call for a rule asks for n.
    pub fn empty() -> Library {
        let Buffers { moves, marks, station, outside } = Buffers::default();
        Library { moves, marks, station, outside, number: 0, can: 0, n: 0, round: 0 }
    }

    /// The call for a rule.
    pub fn solve_rule(&mut self, i: usize, o: usize, mode: Mode, rule: &[u8], condition: &[u8]) {
        let mut place = 0;
        self.number = unsafe {
            airtable_solve_rule(
                i,
                o,
                mode_byte(mode),
                rule.as_ptr(),
                rule.len(),
                condition.as_ptr(),
                condition.len(),
                self.moves.as_mut_ptr(),
                self.moves.len(),
                self.marks.as_mut_ptr(),
                self.marks.len(),
                self.station.as_mut_ptr(),
                self.station.len(),
                self.outside.as_mut_ptr(),
                self.outside.len(),
                &mut self.can,
                &mut self.n,
                &mut self.round,
                &mut place,
            )
        };
    }

    /// The call for a given automaton.
    pub fn solve_given(&mut self, i: usize, o: usize, mode: Mode, given: &Given) {
        let mut place = 0;
        self.number = unsafe {
            airtable_solve_given(
                i,
                o,
                mode_byte(mode),
                given.n,
                given.moves.as_ptr(),
                given.moves.len(),
                given.marks.as_ptr(),
                given.marks.len(),
                given.start,
                given.mask,
                self.station.as_mut_ptr(),
                self.station.len(),
                self.outside.as_mut_ptr(),
                self.outside.len(),
                &mut self.can,
                &mut self.round,
                &mut place,
            )
        };
    }
}
