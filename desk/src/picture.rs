//! The states as a drawing.
//!
//! plan    where all parts of the drawing are; curves, and the size of text
//! dot     a plan by Graphviz
//! layers  a plan in plain layers, without Graphviz
//! svg     a plan as an SVG

mod dot;
mod layers;
mod plan;
mod svg;

use plan::{Link, Sheet};

/// A state in the drawing.
#[derive(Clone, Debug, PartialEq, Eq)]
pub struct Node {
    pub state: usize,
    pub start: bool,
    pub goal: bool,
    /// Whether the side that lost the question wins from here: drawn in grey.
    pub lost: bool,
}

/// All moves from one state to another: lines of text, each a formula with what is set.
#[derive(Clone, Debug, PartialEq, Eq)]
pub struct Arrow {
    pub from: usize,
    pub to: usize,
    pub lines: Vec<String>,
    /// Whether the winner's table never takes it: drawn in grey and dashed.
    pub stray: bool,
}

/// What is drawn: the states differ, both ends of an arrow are among them, and no two arrows have the same ends.
#[derive(Clone, Debug, PartialEq, Eq, Default)]
pub struct Graph {
    pub nodes: Vec<Node>,
    pub arrows: Vec<Arrow>,
}

/// A drawing, and the lines that do not stand in it: an arrow's name, such as "3 → 5", with all its lines.
#[derive(Clone, Debug, PartialEq, Eq)]
pub struct Picture {
    pub svg: String,
    pub legend: Vec<(String, Vec<String>)>,
}

/// The most states that are drawn.
pub const MOST: usize = 60;

/// The most states with which lines of text stand at the arrows.
const MOST_LABELLED: usize = 24;

/// The most lines that stand at an arrow and the most characters of one of them: first, and where the drawing gets too
/// large by that.
const CUTS: [(usize, usize); 2] = [(6, 64), (4, 30)];

/// The size of a printed page in which a drawing should find room, and how far a drawing with text at its arrows may be
/// scaled down for it.
const PAGE: (f64, f64) = (680.0, 940.0);
const SMALLEST: f64 = 0.7;

/// How much larger a drawing to the right must come out than one downwards to be taken.
const ACROSS: f64 = 1.15;

/// The states as an SVG, with `dot` as Graphviz's program where there is one; nothing if there are no states, or more
/// than `MOST`.
pub fn svg(graph: &Graph, mut dot: Option<&str>) -> Option<Picture> {
    if graph.nodes.is_empty() || graph.nodes.len() > MOST {
        return None;
    }
    let mut tries: Vec<Vec<Vec<String>>> = vec![];
    for most in CUTS.iter().filter(|_| graph.nodes.len() <= MOST_LABELLED) {
        tries.push(graph.arrows.iter().map(|arrow| cut(&arrow.lines, *most)).collect());
    }
    tries.push(vec![vec![]; graph.arrows.len()]);
    for labels in tries {
        let (svg, scale) = drawn(graph, &labels, &mut dot);
        if scale >= SMALLEST || labels.iter().all(Vec::is_empty) {
            return Some(Picture { svg, legend: legend(graph, &labels) });
        }
    }
    None
}

/// The lines that stand at an arrow: those that are not too long, as far as they are not too many, and two dots for the
/// others.
fn cut(lines: &[String], (most, characters): (usize, usize)) -> Vec<String> {
    let mut shown: Vec<String> = lines.iter().filter(|line| line.chars().count() <= characters).cloned().collect();
    if shown.len() < lines.len() || shown.len() > most {
        shown.truncate(most - 1);
        shown.push("..".to_string());
    }
    shown
}

/// The arrows whose lines do not all stand in the drawing, in the order of their states.
fn legend(graph: &Graph, labels: &[Vec<String>]) -> Vec<(String, Vec<String>)> {
    let missing = graph.arrows.iter().zip(labels).filter(|(arrow, shown)| arrow.lines != **shown);
    let mut arrows: Vec<&Arrow> = missing.map(|(arrow, _)| arrow).collect();
    arrows.sort_by_key(|arrow| (arrow.from, arrow.to));
    arrows.iter().map(|arrow| (format!("{} → {}", arrow.from, arrow.to), arrow.lines.clone())).collect()
}

/// The drawing with these lines at its arrows, and its scale on a printed page: downwards, or to the right where that
/// comes out much larger. A program that failed once is not asked again.
fn drawn(graph: &Graph, labels: &[Vec<String>], dot: &mut Option<&str>) -> (String, f64) {
    let sheet = sheet(graph, labels);
    let both = |program: &str| Some([dot::plan(program, &sheet, false)?, dot::plan(program, &sheet, true)?]);
    let plans = dot.and_then(both);
    if plans.is_none() {
        *dot = None;
    }
    let [down, across] = plans.unwrap_or_else(|| [false, true].map(|across| layers::plan(&sheet, across)));
    let scales = [&down, &across].map(|plan| plan.scale(&sheet, PAGE));
    let (plan, scale) = if scales[1] > ACROSS * scales[0] { (across, scales[1]) } else { (down, scales[0]) };
    (svg::draw(graph, labels, &sheet, &plan), scale)
}

/// The sizes of what is laid out.
fn sheet(graph: &Graph, labels: &[Vec<String>]) -> Sheet {
    let place = |state| graph.nodes.iter().position(|node| node.state == state).expect("an arrow between drawn states");
    let link = |(arrow, lines): (&Arrow, &Vec<String>)| Link {
        from: place(arrow.from),
        to: place(arrow.to),
        label: (!lines.is_empty()).then(|| plan::text_size(lines)),
    };
    Sheet {
        radii: graph.nodes.iter().map(svg::radius).collect(),
        start: graph.nodes.iter().position(|node| node.start),
        links: graph.arrows.iter().zip(labels).map(link).collect(),
    }
}
