//! What all kinds of cases share: lent buffers with canaries, the comparing of refusals,
//! the choice of signatures and lengths, and the printing of bytes.

use crate::capi::Told;
use solver::calls::Refusal;
use solver::chance::Chance;
use solver::Mode;

/// A value no call would hand back by itself.
pub const SENTINEL: usize = 0x0DEA_DBEE_F0DE_ADBE;

/// Bytes behind every lent buffer that no call may touch.
const GUARD: usize = 24;

/// A buffer lent for writing: the call is told of `told` bytes, and some more lie behind them.
#[derive(Clone, Debug)]
pub struct Lent {
    pub bytes: Vec<u8>,
    pub before: Vec<u8>,
    pub told: usize,
}

impl Lent {
    /// A buffer of a length with random old contents.
    pub fn new(chance: &mut Chance, told: usize) -> Lent {
        let bytes = chance.bytes(told + GUARD);
        Lent { before: bytes.clone(), bytes, told }
    }

    /// Where the buffer begins; nowhere if the call is told of no bytes.
    pub fn pointer(&mut self) -> *mut u8 {
        if self.told == 0 {
            std::ptr::null_mut()
        } else {
            self.bytes.as_mut_ptr()
        }
    }

    /// The old contents that the call was told of.
    pub fn old(&self) -> Vec<u8> {
        self.before[..self.told].to_vec()
    }

    /// Checks that the told bytes are now `wanted` and the guard is as it was.
    pub fn check(&self, name: &str, wanted: &[u8]) -> Result<(), String> {
        let wanted: Vec<u8> = [wanted, &self.before[self.told..]].concat();
        match (0..wanted.len()).find(|&k| wanted[k] != self.bytes[k]) {
            None => Ok(()),
            Some(k) => Err(format!("{name}: byte {k} of {} is {}, wanted {}", self.told, self.bytes[k], wanted[k])),
        }
    }
}

/// Compares a single value that a call has to write.
pub fn check_value(name: &str, value: usize, wanted: usize) -> Result<(), String> {
    if value == wanted {
        Ok(())
    } else {
        Err(format!("{name} {value}, wanted {wanted}"))
    }
}

/// Compares number and place of a call with the solver's answer; `Ok` is number 0. The place is 0
/// where there is none, and so is the answer of a refused call.
pub fn check_number(told: &Told, wanted: Result<(), Refusal>) -> Result<(), String> {
    let (number, place) = match wanted {
        Ok(()) => (0, None),
        Err(refusal) => (refusal.number, refusal.place),
    };
    if told.number != number {
        return Err(format!("number {} (place {}), wanted {number} (place {place:?})", told.number, told.place));
    }
    if number != 0 {
        check_value("answer of a refused call", told.answer as usize, 0)?;
    }
    check_value("place", told.place, place.unwrap_or(0))
}

/// Compares a verdict byte, which has to be 0 or 1.
pub fn check_answer(answer: u8, wanted: bool) -> Result<(), String> {
    if answer == wanted as u8 {
        Ok(())
    } else {
        Err(format!("answer {answer}, wanted {}", wanted as u8))
    }
}

/// Bytes in a form that can be typed in again.
pub fn hex(bytes: &[u8]) -> String {
    bytes.iter().map(|byte| format!("{byte:02x}")).collect()
}

/// A text both as hex and as it reads.
pub fn shown(text: &[u8]) -> String {
    format!("hex {} = \"{}\"", hex(text), text.escape_ascii())
}

/// Some count far too large.
fn huge(chance: &mut Chance) -> usize {
    chance.pick(&[6, 7, 8, 31, 32, 60, 63, 64, 65, 128, 255, 256, 260, 1 << 32, 1 << 63, usize::MAX - 3, usize::MAX])
}

/// A count of inputs or outputs: mostly small, sometimes 5 or huge.
pub fn wild_count(chance: &mut Chance, most: usize) -> usize {
    match chance.below(40) {
        0 => 5,
        1 => huge(chance),
        _ => chance.between(0, most),
    }
}

/// A mode.
pub fn any_mode(chance: &mut Chance) -> Mode {
    if chance.one_in(2) {
        Mode::Fair
    } else {
        Mode::Stable
    }
}

/// The four buffers, in the order of the calls.
pub const BUFFERS: [&str; 4] = ["moves", "marks", "station", "outside"];

/// How a lent length stands to the share that is needed.
pub fn fit(told: usize, share: usize) -> &'static str {
    match told {
        _ if told >= share => "enough",
        0 => "empty",
        _ if told + 1 == share => "one byte short",
        _ => "shorter",
    }
}

/// What refusal 3 is counted as: the one buffer that is short, or that all are empty, or that several are short.
pub fn short_kind(names: &[&str], told: &[usize], shares: &[usize]) -> String {
    let fits: Vec<&str> = told.iter().zip(shares).map(|(&told, &share)| fit(told, share)).collect();
    let short: Vec<usize> = (0..fits.len()).filter(|&k| fits[k] != "enough").collect();
    match short[..] {
        [k] => format!("{} alone, {}", names[k], fits[k]),
        _ if fits.iter().all(|&fit| fit == "empty") => "all empty".into(),
        _ => "several".into(),
    }
}

/// What a served call is counted as: the buffers that are longer than their share, whose rest must stay as it was.
pub fn room_kind(names: &[&str], told: &[usize], shares: &[usize]) -> String {
    let longer: Vec<&str> = (0..names.len()).filter(|&k| told[k] > shares[k]).map(|k| names[k]).collect();
    match longer[..] {
        [] => "all exact".into(),
        [name] => format!("{name} alone longer"),
        _ if longer.len() == names.len() => "all longer".into(),
        _ => "several longer".into(),
    }
}

/// A buffer length that suffices: exact, one more, or some more.
pub fn enough(chance: &mut Chance, exact: usize) -> usize {
    match chance.below(4) {
        0 | 1 => exact,
        2 => exact + 1,
        _ => exact + chance.below(400),
    }
}

/// A buffer length that may be one short, far short or empty.
pub fn wild_length(chance: &mut Chance, exact: usize) -> usize {
    match chance.below(6) {
        0 => exact.saturating_sub(1),
        1 => chance.below(exact + 1),
        2 => 0,
        _ => enough(chance, exact),
    }
}
