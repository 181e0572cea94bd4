//! The desk: station files with names, reports for an authority, and a simulator, on top of the proved library. None of it is proved.
//! Every fact that it shows comes from the library, and none is computed a second time.
//!
//! engine     the library's calls: solve a rule, try a rule, take a step
//! station    the station file: wires, promise and rule in its own names; what is wrong in it, and where
//! case       a station file with the engine's answer
//! tree       an accepted formula as a tree
//! words      a formula in words
//! formula    a set of inputs, outputs or letters as a short formula over the names
//! play       what the tables let happen: the states they come to, a play that defeats the station, warnings
//! asking     which other promise would do
//! picture    the states as a drawing, laid out by Graphviz or in plain layers
//! html       escaped text
//! odd        characters that are not shown as they are
//! sentences  what the command and the page both say
//! simulator  the part of the page that plays
//! report     the page
//! hash       SHA-256

pub mod asking;
pub mod case;
pub mod engine;
pub mod formula;
pub mod hash;
pub mod html;
pub mod odd;
pub mod picture;
pub mod play;
pub mod report;
pub mod sentences;
pub mod simulator;
pub mod station;
pub mod tree;
pub mod words;
