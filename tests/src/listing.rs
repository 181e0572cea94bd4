//! The program `airtable` as a function from the bytes of its standard input to the bytes
//! of its standard output.

use crate::calls::{shares, solve_rule, Buffers, Refusal, Verdict};
use crate::Mode;
use crate::STATES;

/// The four lines taken apart.
#[derive(Clone, Debug, PartialEq, Eq)]
pub struct Lines {
    pub i: usize,
    pub o: usize,
    pub mode: Mode,
    pub condition: Vec<u8>,
    pub rule: Vec<u8>,
}

/// The text before the next 0x0A, and what stands behind it.
fn line(bytes: &[u8]) -> Option<(&[u8], &[u8])> {
    let end = bytes.iter().position(|&byte| byte == b'\n')?;
    Some((&bytes[..end], &bytes[end + 1..]))
}

/// The two digits of the first line.
fn digits(first: &[u8]) -> Option<(usize, usize)> {
    match first {
        [i @ b'0'..=b'9', b' ', o @ b'0'..=b'9'] => Some(((i - b'0') as usize, (o - b'0') as usize)),
        _ => None,
    }
}

/// Takes the input apart; nothing where it is refused with 14.
pub fn lines(bytes: &[u8]) -> Option<Lines> {
    if bytes.len() > 2048 {
        return None;
    }
    let (first, rest) = line(bytes)?;
    let (second, rest) = line(rest)?;
    let (condition, rest) = line(rest)?;
    let (rule, rest) = line(rest)?;
    let (i, o) = digits(first)?;
    let mode = match second {
        b"fair" => Mode::Fair,
        b"stable" => Mode::Stable,
        _ => return None,
    };
    rest.is_empty().then(|| Lines { i, o, mode, condition: condition.to_vec(), rule: rule.to_vec() })
}

/// The line of a refusal.
fn refused(refusal: Refusal) -> Vec<u8> {
    format!("refused {} {}\n", refusal.number, refusal.place.unwrap_or(0)).into_bytes()
}

/// Buffers long enough for every rule (none where i or o is out of range), filled with a byte that is neither a state, a
/// mark nor an entry of a table.
pub fn buffers(i: usize, o: usize) -> Buffers {
    if i > 4 || o > 4 {
        return Buffers::default();
    }
    Buffers::filled(shares(i, o, STATES), 0xa5)
}

/// The line of one state.
fn state_line(i: usize, buffers: &Buffers, s: usize) -> String {
    let row = &buffers.station[s << i..(s + 1) << i];
    let station = buffers.outside[s] == 255;
    let bytes = if station { row } else { &buffers.outside[s..s + 1] };
    let numbers: Vec<String> = bytes.iter().map(|byte| byte.to_string()).collect();
    let mark = if buffers.marks[s] != 0 { '*' } else { '-' };
    format!("{s} {mark} {} {}\n", if station { 'S' } else { 'O' }, numbers.join(" "))
}

/// The first line of a listing.
fn head(verdict: Verdict) -> String {
    format!("{} {} {}\n", if verdict.can { "can" } else { "cannot" }, verdict.n, verdict.round)
}

/// What the program prints for an input.
pub fn airtable(bytes: &[u8]) -> Vec<u8> {
    let Some(lines) = lines(bytes) else { return refused(Refusal::plain(14)) };
    let mut buffers = buffers(lines.i, lines.o);
    match solve_rule(lines.i, lines.o, lines.mode, &lines.rule, &lines.condition, &mut buffers) {
        Err(refusal) => refused(refusal),
        Ok(verdict) => {
            let mut text = head(verdict);
            for s in 0..verdict.n {
                text += &state_line(lines.i, &buffers, s);
            }
            text.into_bytes()
        }
    }
}
