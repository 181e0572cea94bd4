//! The calls of the specification with their refusals in the specification's order and the buffers after. Everything is
//! checked first, in the order of the specification's last table, and only then is anything written.

use crate::automaton::{build, Automaton};
use crate::game::Game;
use crate::meaning::satisfies;
use crate::reader::read;
use crate::tables::{self, Tables};
use crate::tree::{condition_mask, Tree};
use crate::wording::Wording;
use crate::Mode;
use crate::STATES;

/// A refusal: its number, a place or index where the specification names one, and with 3 the number of states that the
/// buffers must have room for.
#[derive(Clone, Copy, Debug, PartialEq, Eq)]
pub struct Refusal {
    pub number: u8,
    pub place: Option<usize>,
    pub needed: Option<usize>,
}

impl Refusal {
    /// A refusal that tells its number alone.
    pub const fn plain(number: u8) -> Refusal {
        Refusal { number, place: None, needed: None }
    }

    /// A refusal with a place or index.
    pub const fn placed(number: u8, place: usize) -> Refusal {
        Refusal { number, place: Some(place), needed: None }
    }

    /// Refusal 3: a buffer is too short for n states.
    pub const fn short(n: usize) -> Refusal {
        Refusal { number: 3, place: None, needed: Some(n) }
    }
}

/// The four buffers of the call for a rule.
#[derive(Clone, Debug, Default, PartialEq, Eq)]
pub struct Buffers {
    pub moves: Vec<u8>,
    pub marks: Vec<u8>,
    pub station: Vec<u8>,
    pub outside: Vec<u8>,
}

impl Buffers {
    /// Buffers of some lengths, filled with one byte.
    pub fn filled(lengths: [usize; 4], byte: u8) -> Buffers {
        let [moves, marks, station, outside] = lengths.map(|length| vec![byte; length]);
        Buffers { moves, marks, station, outside }
    }

    /// The four lengths.
    pub fn lengths(&self) -> [usize; 4] {
        [&self.moves, &self.marks, &self.station, &self.outside].map(Vec::len)
    }
}

/// What a solving call hands back: the verdict, the count of states and the round number.
#[derive(Clone, Copy, Debug, PartialEq, Eq)]
pub struct Verdict {
    pub can: bool,
    pub n: usize,
    pub round: usize,
}

/// An automaton given directly.
#[derive(Clone, Debug)]
pub struct Given {
    pub n: usize,
    pub moves: Vec<u8>,
    pub marks: Vec<u8>,
    pub start: usize,
    pub mask: u16,
}

/// A follower's step: the output and the next position.
#[derive(Clone, Copy, Debug, PartialEq, Eq)]
pub struct Step {
    pub output: u8,
    pub state: usize,
    pub reached: bool,
}

/// A refusal without a place if `wrong`.
fn refuse_if(wrong: bool, number: u8) -> Result<(), Refusal> {
    if wrong {
        Err(Refusal::plain(number))
    } else {
        Ok(())
    }
}

/// n states' share of moves, marks, station and outside.
pub fn shares(i: usize, o: usize, n: usize) -> [usize; 4] {
    [n << (i + o), n, n << i, n]
}

/// Refusal 3 if one of some lengths is below its share of n states.
fn refuse_short(lengths: &[usize], shares: &[usize], n: usize) -> Result<(), Refusal> {
    if lengths.iter().zip(shares).any(|(length, share)| length < share) {
        Err(Refusal::short(n))
    } else {
        Ok(())
    }
}

/// Reads a rule under the limits: refusals 4, 5 and 6.
fn read_rule(i: usize, o: usize, rule: &[u8]) -> Result<Tree, Refusal> {
    let tree = read(rule, Wording::rule(i, o)).map_err(|k| Refusal::placed(4, k))?;
    refuse_if(tree.count() > 64, 5)?;
    refuse_if(tree.operators().len() > 5, 6)?;
    Ok(tree)
}

/// Reads a condition that some input number meets, under the limits: refusals 7, 8 and 15.
fn read_condition(i: usize, condition: &[u8]) -> Result<Tree, Refusal> {
    let tree = read(condition, Wording::condition(i)).map_err(|k| Refusal::placed(7, k))?;
    refuse_if(tree.count() > 64, 8)?;
    refuse_if((0..1 << i).all(|x| !tree.plain_value(tree.root, i, x)), 15)?;
    Ok(tree)
}

/// Reads rule and condition after all earlier checks: refusals 1, 2, 4 to 8 and 15.
fn rule_and_condition(i: usize, o: usize, rule: &[u8], condition: &[u8]) -> Result<(Tree, u16), Refusal> {
    refuse_if(i > 4 || o > 4, 1)?;
    refuse_if(rule.len() > 255 || condition.len() > 255, 2)?;
    let tree = read_rule(i, o, rule)?;
    let condition = read_condition(i, condition)?;
    Ok((tree, condition_mask(&condition, i)))
}

/// Writes the front of a buffer; the rest stays as it was.
fn write(buffer: &mut [u8], front: &[u8]) {
    buffer[..front.len()].copy_from_slice(front);
}

/// Writes both tables into their buffers.
fn write_tables(tables: &Tables, station: &mut [u8], outside: &mut [u8]) {
    write(station, &tables.station);
    write(outside, &tables.outside);
}

/// The game on a rule's automaton.
pub fn game_of(automaton: &Automaton, i: usize, o: usize, mask: u16, mode: Mode) -> Game {
    let (moves, goals) = (automaton.moves.clone(), automaton.goals.clone());
    Game { i, o, n: automaton.n(), moves, goals, mask, mode }
}

/// The call for a rule. Refusals 1, 2, 4, 5, 6, 7, 8, 15, 9, 3.
pub fn solve_rule(
    i: usize,
    o: usize,
    mode: Mode,
    rule: &[u8],
    condition: &[u8],
    buffers: &mut Buffers,
) -> Result<Verdict, Refusal> {
    let (tree, mask) = rule_and_condition(i, o, rule, condition)?;
    let automaton = build(&tree, i, o, STATES).ok_or(Refusal::plain(9))?;
    refuse_short(&buffers.lengths(), &shares(i, o, automaton.n()), automaton.n())?;
    let game = game_of(&automaton, i, o, mask, mode);
    let tables = tables::build(&game, 0);
    let moves: Vec<u8> = game.moves.iter().map(|&t| t as u8).collect();
    let marks: Vec<u8> = game.goals.iter().map(|&goal| goal as u8).collect();
    write(&mut buffers.moves, &moves);
    write(&mut buffers.marks, &marks);
    write_tables(&tables, &mut buffers.station, &mut buffers.outside);
    Ok(Verdict { can: tables.outside[0] == 255, n: game.n, round: tables.round })
}

/// The refusals of the call for a given automaton, in its order: 1, 10, 3, 12, 11, 13, 15.
fn check_given(i: usize, o: usize, given: &Given, station: usize, outside: usize) -> Result<(), Refusal> {
    refuse_if(i > 4 || o > 4, 1)?;
    refuse_if(given.n == 0 || given.n > STATES, 10)?;
    let shares = shares(i, o, given.n);
    refuse_short(&[given.moves.len(), given.marks.len(), station, outside], &shares, given.n)?;
    refuse_if(given.start >= given.n, 12)?;
    if let Some(index) = given.moves[..shares[0]].iter().position(|&t| t as usize >= given.n) {
        return Err(Refusal::placed(11, index));
    }
    refuse_if((1usize << i..16).any(|x| given.mask >> x & 1 == 1), 13)?;
    refuse_if((0..1usize << i).all(|x| given.mask >> x & 1 == 0), 15)
}

/// The game on a given automaton that has passed its checks.
pub fn game_of_given(i: usize, o: usize, mode: Mode, given: &Given) -> Game {
    let moves = given.moves[..given.n << (i + o)].iter().map(|&t| t as usize).collect();
    let goals = given.marks[..given.n].iter().map(|&mark| mark != 0).collect();
    Game { i, o, n: given.n, moves, goals, mask: given.mask, mode }
}

/// The call for a given automaton.
pub fn solve_given(
    i: usize,
    o: usize,
    mode: Mode,
    given: &Given,
    station: &mut [u8],
    outside: &mut [u8],
) -> Result<Verdict, Refusal> {
    check_given(i, o, given, station.len(), outside.len())?;
    let tables = tables::build(&game_of_given(i, o, mode, given), given.start);
    write_tables(&tables, station, outside);
    Ok(Verdict { can: tables.outside[given.start] == 255, n: given.n, round: tables.round })
}

/// The follower's lent buffers.
#[derive(Clone, Copy, Debug)]
pub struct Lent<'a> {
    pub n: usize,
    pub moves: &'a [u8],
    pub marks: &'a [u8],
    pub station: &'a [u8],
}

/// The follower's refusals before the row is looked at: 1, 10, 3, 12, 13.
fn check_follow(i: usize, o: usize, lent: Lent, input: usize, state: usize) -> Result<(), Refusal> {
    refuse_if(i > 4 || o > 4, 1)?;
    refuse_if(lent.n == 0 || lent.n > STATES, 10)?;
    let lengths = [lent.moves.len(), lent.marks.len(), lent.station.len()];
    refuse_short(&lengths, &shares(i, o, lent.n), lent.n)?;
    refuse_if(state >= lent.n, 12)?;
    refuse_if(input >= 1 << i, 13)
}

/// The follower: a step, or nothing for "no row".
pub fn follow(
    i: usize,
    o: usize,
    lent: Lent,
    input: usize,
    state: usize,
    reached: bool,
) -> Result<Option<Step>, Refusal> {
    check_follow(i, o, lent, input, state)?;
    let output = lent.station[(state << i) + input];
    if output as usize >= 1 << o {
        return Ok(None);
    }
    let index = (state << (i + o)) + input + ((output as usize) << i);
    let next = lent.moves[index] as usize;
    if next >= lent.n {
        return Err(Refusal::placed(11, index));
    }
    Ok(Some(Step { output, state: next, reached: reached || lent.marks[next] != 0 }))
}

/// The trial: whether a list of letters satisfies a rule. Refusals 1, 2, 4, 5, 6, 13.
pub fn try_rule(i: usize, o: usize, rule: &[u8], letters: &[u8]) -> Result<bool, Refusal> {
    refuse_if(i > 4 || o > 4, 1)?;
    refuse_if(rule.len() > 255, 2)?;
    let tree = read_rule(i, o, rule)?;
    if let Some(index) = letters.iter().position(|&letter| letter as usize >= 1 << (i + o)) {
        return Err(Refusal::placed(13, index));
    }
    Ok(satisfies(&tree, i, letters))
}
