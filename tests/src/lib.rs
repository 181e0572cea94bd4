//! An independent solver for the rule engine, written from its specification alone.
//! It is slow and plain on purpose; a verified library is tested against it.
//!
//! wording    which bytes are marks, for a rule or for a condition
//! tree       a rule after reading
//! reader     recursive descent: text to tree, and the limits
//! viable     Earley's method: the place of a bad text
//! meaning    LTLf by positions of a list
//! automaton  vectors, states, breadth-first discovery
//! game       both games by nested fixpoints over sets of states
//! numbers    the numbers of the states by games on pairs of a state and a budget
//! tables     both tables by their rules over these numbers
//! longest    longest counts on paths of a graph, cycles included
//! judge      exact judgement of tables, whoever made them
//! calls      the calls with their refusals and buffers
//! listing    the program `airtable`, bytes to bytes
//! large      rules with about 128 states
//! header     the library in C, for the programs that call it
//! prototypes what include/airtable.h declares, read from its text
//! signatures the public functions of the crates, read from their sources
//! chance, makers, conditions  seeded random inputs for the comparing programs

pub mod automaton;
pub mod calls;
pub mod chance;
pub mod conditions;
pub mod game;
pub mod header;
pub mod judge;
pub mod large;
pub mod listing;
pub mod longest;
pub mod makers;
pub mod meaning;
pub mod numbers;
pub mod prototypes;
pub mod reader;
pub mod signatures;
pub mod tables;
pub mod tree;
pub mod viable;
pub mod wording;

/// The states that an automaton may have.
pub const STATES: usize = 128;

/// The assumption on the outside: the condition again and again, or always from some step on.
#[derive(Clone, Copy, Debug, PartialEq, Eq)]
pub enum Mode {
    Fair,
    Stable,
}
