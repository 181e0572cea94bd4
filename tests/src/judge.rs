//! Judges tables, whoever made them, by the graph of plays that follow them: a second look, which uses no number of a
//! state. Every byte is determined (tables.rs); this only finds out whether a table holds good, as others would too. A
//! table says by its own bytes which states it wins: the winner's bytes are in range and the loser's are 255. Each such
//! claim is then checked exactly, from every state:
//!
//! station  no play that has not entered a goal comes to a byte that is no output; in fair mode it
//!          has fewer than n steps with the condition, in stable mode fewer than n of them in a row;
//!          from the start fewer than the round number
//! outside  no play enters a goal or comes to a byte that is no input; in fair mode it has fewer
//!          than n steps in a row without the condition, in stable mode fewer than n in all
//!
//! Every claimed state is a start, so the graph over all claimed states has exactly these plays; and the part
//! of it that paths from the start go through has, as its longest, the longest of these paths. That no table
//! does with a smaller round number is not judged here: numbers.rs finds the number.

use crate::game::Game;
use crate::longest::{edges_from, most_in_a_row, most_marked, Edge};
use crate::Mode;

/// Who a table says wins a state.
fn claim(game: &Game, station: &[u8], outside: &[u8], s: usize) -> Result<bool, String> {
    let row = &station[s * game.inputs()..(s + 1) * game.inputs()];
    let in_range = row.iter().all(|&y| (y as usize) < game.outputs());
    let blank = row.iter().all(|&y| y == 255);
    let input = (outside[s] as usize) < game.inputs();
    match (in_range, blank, input, outside[s] == 255) {
        (true, false, false, true) => Ok(true),
        (false, true, true, false) => Ok(false),
        _ => Err(format!("state {s}: station row {row:?} and outside byte {} name no winner", outside[s])),
    }
}

/// The steps of plays that follow the station table and enter no goal; marked is the condition.
fn station_edges(game: &Game, station: &[u8], wins: &[bool]) -> Result<Vec<Edge>, String> {
    let mut edges = vec![];
    for s in (0..game.n).filter(|&s| wins[s]) {
        for x in 0..game.inputs() {
            let t = game.step(s, x, station[s * game.inputs() + x] as usize);
            if game.goals[t] {
                continue;
            }
            if !wins[t] {
                return Err(format!("station table: from state {s} input {x} leads to {t}, which has no row"));
            }
            edges.push(Edge { from: s, to: t, marked: game.condition(x) });
        }
    }
    Ok(edges)
}

/// The steps of plays that follow the outside table; marked is a step without the condition.
fn outside_edges(game: &Game, outside: &[u8], wins: &[bool]) -> Result<Vec<Edge>, String> {
    let mut edges = vec![];
    for s in (0..game.n).filter(|&s| !wins[s]) {
        let x = outside[s] as usize;
        for y in 0..game.outputs() {
            let t = game.step(s, x, y);
            if game.goals[t] {
                return Err(format!("outside table: from state {s} output {y} enters the goal {t}"));
            }
            if wins[t] {
                return Err(format!("outside table: from state {s} output {y} leads to {t}, which has no byte"));
            }
            edges.push(Edge { from: s, to: t, marked: !game.condition(x) });
        }
    }
    Ok(edges)
}

/// Checks that a largest count exists and is below a number.
fn below(count: Option<usize>, number: usize, what: &str) -> Result<(), String> {
    match count {
        Some(count) if count < number => Ok(()),
        Some(count) => Err(format!("{what}: {count} and not below {number}")),
        None => Err(format!("{what}: without end")),
    }
}

/// Drops edges that are there twice.
fn once(mut edges: Vec<Edge>) -> Vec<Edge> {
    edges.sort();
    edges.dedup();
    edges
}

/// Checks the round number: the table keeps it from the start, and it is 0 where the outside wins the start.
fn keeps_round(game: &Game, edges: &[Edge], start: usize, round: usize, wins: bool) -> Result<(), String> {
    if wins != (round > 0) {
        return Err(format!("the round number is {round}, and that the station wins the start is {wins}"));
    }
    let edges = edges_from(game.n, edges, start);
    let most = match game.mode {
        Mode::Fair => most_marked(game.n, &edges),
        Mode::Stable => most_in_a_row(game.n, &edges),
    };
    if wins {
        below(most, round, "station table, steps from the start with the condition and no goal")?;
    }
    Ok(())
}

/// Judges n states' share of both tables, the station's with a round number from the start; hands back for each
/// state whether the station wins it, or what is wrong. A good answer is a proof: no state can be won by both sides.
pub fn judge(game: &Game, start: usize, round: usize, station: &[u8], outside: &[u8]) -> Result<Vec<bool>, String> {
    let claims: Result<Vec<bool>, String> = (0..game.n).map(|s| claim(game, station, outside, s)).collect();
    let wins = claims?;
    let mine = once(station_edges(game, station, &wins)?);
    let theirs = once(outside_edges(game, outside, &wins)?);
    keeps_round(game, &mine, start, round, wins[start])?;
    let (mine, theirs) = match game.mode {
        Mode::Fair => (most_marked(game.n, &mine), most_in_a_row(game.n, &theirs)),
        Mode::Stable => (most_in_a_row(game.n, &mine), most_marked(game.n, &theirs)),
    };
    below(mine, game.n, "station table, steps with the condition and no goal")?;
    below(theirs, game.n, "outside table, steps without the condition")?;
    Ok(wins)
}
