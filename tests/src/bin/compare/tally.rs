//! Counts of what the cases came to: how often a table byte was one that a simpler rule would not have chosen.

use solver::calls::Verdict;
use solver::game::{Board, Game};
use solver::numbers::{counts, distances, needs, Numbers};
use solver::tables::station_by_needs;
use solver::Mode;
use std::collections::BTreeMap;

/// Counts of what the cases came to.
#[derive(Default)]
pub struct Tally {
    pub counts: BTreeMap<String, u64>,
}

/// A served call: the game, its verdict, who wins each state, and n states' share of the tables.
pub struct Served<'a> {
    pub game: &'a Game,
    pub verdict: Verdict,
    pub wins: &'a [bool],
    pub station: &'a [u8],
    pub outside: &'a [u8],
}

impl Served<'_> {
    /// Whether a byte of the station is not the lowest output to a goal or a state that it wins.
    fn passes_an_output(&self) -> bool {
        let stays = |s: usize, x: usize, y: usize| {
            let t = self.game.step(s, x, y);
            self.game.goals[t] || self.wins[t]
        };
        (0..self.game.n * self.game.inputs()).any(|at| {
            let (s, x) = (at / self.game.inputs(), at % self.game.inputs());
            self.wins[s] && (0..self.station[at] as usize).any(|y| stays(s, x, y))
        })
    }

    /// Whether a byte of the outside is not the lowest input that keeps to no goal and states that it wins.
    fn passes_an_input(&self) -> bool {
        let keeps = |s: usize, x: usize| {
            (0..self.game.outputs()).map(|y| self.game.step(s, x, y)).all(|t| !self.game.goals[t] && !self.wins[t])
        };
        (0..self.game.n).any(|s| !self.wins[s] && (0..self.outside[s] as usize).any(|x| keeps(s, x)))
    }

    /// The largest distance, or count, of the outside.
    fn largest(&self) -> usize {
        let board = Board::new(self.game);
        let numbers = match self.game.mode {
            Mode::Fair => distances(&board, self.wins),
            Mode::Stable => counts(&board),
        };
        numbers.into_iter().flatten().max().unwrap_or(0)
    }

    /// What the needs for the round number and those for n come to on "can" when stable.
    fn needs(&self) -> Vec<(&'static str, bool)> {
        let Verdict { n, round, .. } = self.verdict;
        let board = Board::new(self.game);
        let (near, far) = (needs(&board, round), needs(&board, n));
        let by = |near: &Numbers, m: usize| station_by_needs(self.game, (m, near), &far);
        let low: Numbers = near.iter().map(|need| need.filter(|&need| need <= round)).collect();
        vec![
            ("a won state without a need for r", (0..n).any(|s| self.wins[s] && near[s].is_none())),
            ("a need above r", near.iter().flatten().any(|&need| need > round)),
            ("a byte not as by the needs for n alone", by(&near, round) != by(&far, n)),
            ("a byte not as without the needs above r", by(&near, round) != by(&low, round)),
        ]
    }

    /// All that is counted, with whether it holds.
    fn kinds(&self) -> Vec<(&'static str, bool)> {
        let Verdict { can, n, round } = self.verdict;
        let largest = self.largest();
        let bytes = vec![
            ("a distance or count above 1", largest > 1),
            ("a distance or count above 10", largest > 10),
            ("an output above the lowest that stays won", self.passes_an_output()),
            ("an input above the lowest that stays won", self.passes_an_input()),
        ];
        let numbers = vec![
            ("r above 1", round > 1),
            ("r above 1 and below n", round > 1 && round < n),
            ("r above 10", round > 10),
            ("r is n, above 1", round == n && n > 1),
        ];
        let needs = if can && self.game.mode == Mode::Stable { self.needs() } else { vec![] };
        [bytes, numbers, needs].concat()
    }
}

impl Tally {
    /// Counts one case of a kind.
    pub fn count(&mut self, what: String) {
        *self.counts.entry(what).or_insert(0) += 1;
    }

    /// Counts a served call.
    pub fn count_served(&mut self, call: &str, served: &Served) {
        let mode = if served.game.mode == Mode::Fair { "fair" } else { "stable" };
        let name = format!("{call}: {}, {mode}", if served.verdict.can { "can" } else { "cannot" });
        for (kind, _) in served.kinds().iter().filter(|(_, holds)| *holds) {
            self.count(format!("{name}, {kind}"));
        }
        self.count(name);
    }
}
