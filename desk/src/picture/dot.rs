//! A plan by Graphviz.

use super::plan::{Plan, Point, Route, Sheet};
use std::io::{Read, Write};
use std::process::{Command, Stdio};
use std::sync::mpsc::channel;
use std::time::{Duration, Instant};

/// How long Graphviz may take, and how many bytes it may print.
const LIMIT: Duration = Duration::from_secs(20);
const BYTES: u64 = 1 << 22;

/// Graphviz's units: points in an inch.
const INCH: f64 = 72.0;

/// How far from a state's border an arrow may end.
const NEAR: f64 = 6.0;

/// The plan that Graphviz's program makes, downwards or across; nothing if anything about it is odd.
pub fn plan(program: &str, sheet: &Sheet, across: bool) -> Option<Plan> {
    read(&run(program, &source(sheet, across))?, sheet)
}

/// The graph in Graphviz's language: states are circles of given sizes, texts are empty tables of given sizes.
fn source(sheet: &Sheet, across: bool) -> String {
    let direction = if across { "LR" } else { "TB" };
    let mut text = format!("digraph {{ rankdir={direction}; nodesep=0.3; ranksep=0.42;\n");
    text += "node [shape=circle, fixedsize=true, label=\"\"]; edge [dir=none];\n";
    if let Some(start) = sheet.start {
        text += &format!("entry [shape=point, width=0.01]; entry -> n{start};\n");
    }
    for (k, radius) in sheet.radii.iter().enumerate() {
        text += &format!("n{k} [width={:.4}];\n", 2.0 * radius / INCH);
    }
    for link in &sheet.links {
        text += &format!("n{} -> n{}", link.from, link.to);
        if let Some((width, height)) = link.label {
            let table = "TABLE BORDER=\"0\" CELLBORDER=\"0\" CELLPADDING=\"0\" CELLSPACING=\"0\" FIXEDSIZE=\"TRUE\"";
            let size = format!("WIDTH=\"{:.0}\" HEIGHT=\"{:.0}\"", width + 8.0, height + 2.0);
            text += &format!(" [label=<<{table} {size}><TR><TD></TD></TR></TABLE>>]");
        }
        text += ";\n";
    }
    text + "}\n"
}

/// What the program prints for a graph, if it does so within the time limit and without an error.
fn run(program: &str, source: &str) -> Option<String> {
    let mut command = Command::new(program);
    command.arg("-Tplain").stdin(Stdio::piped()).stdout(Stdio::piped()).stderr(Stdio::null());
    let mut child = command.spawn().ok()?;
    let (mut input, output) = (child.stdin.take()?, child.stdout.take()?);
    let source = source.to_string();
    std::thread::spawn(move || input.write_all(source.as_bytes()));
    let (sender, receiver) = channel();
    std::thread::spawn(move || {
        let mut bytes = vec![];
        let read = output.take(BYTES).read_to_end(&mut bytes);
        let _ = sender.send(read.ok().map(|_| bytes));
    });
    let end = Instant::now() + LIMIT;
    let printed = receiver.recv_timeout(LIMIT).ok().flatten();
    let status = loop {
        match child.try_wait() {
            Ok(Some(status)) => break Some(status),
            Ok(None) if printed.is_some() && Instant::now() < end => std::thread::sleep(Duration::from_millis(2)),
            _ => {
                let _ = child.kill();
                let _ = child.wait();
                break None;
            }
        }
    };
    status.filter(|status| status.success())?;
    String::from_utf8(printed?).ok()
}

/// A coordinate, in points; nothing if it is no number or beyond reason.
fn number(word: &str) -> Option<f64> {
    word.parse::<f64>().ok().filter(|value| value.abs() < 1000.0).map(|value| value * INCH)
}

/// A point; Graphviz's y goes upwards.
fn point(x: &str, y: &str) -> Option<Point> {
    Some(Point { x: number(x)?, y: -number(y)? })
}

/// Reads the plan from Graphviz's plain output, in which every state and every arrow stands once.
fn read(text: &str, sheet: &Sheet) -> Option<Plan> {
    let mut nodes = vec![None; sheet.radii.len()];
    let mut routes = vec![None; sheet.links.len()];
    let mut entry = None;
    for line in text.lines() {
        let words: Vec<&str> = line.split_whitespace().collect();
        match words[..] {
            ["node", "entry", ..] => {}
            ["node", name, x, y, ..] => *nodes.get_mut(place(name)?)? = Some(point(x, y)?),
            ["edge", "entry", ..] => entry = Some(route(&words, false)?.curve),
            ["edge", from, to, ..] => {
                let (from, to) = (place(from)?, place(to)?);
                let at = sheet.links.iter().position(|link| (link.from, link.to) == (from, to))?;
                routes[at] = Some(route(&words, sheet.links[at].label.is_some())?);
            }
            _ => {}
        }
    }
    let mut routes: Vec<Route> = routes.into_iter().collect::<Option<_>>()?;
    let nodes: Vec<Point> = nodes.into_iter().collect::<Option<_>>()?;
    for (route, link) in routes.iter_mut().zip(&sheet.links) {
        directed(&mut route.curve, [link.from, link.to].map(|end| (nodes[end], sheet.radii[end])))?;
    }
    let plan = Plan { nodes, routes, entry };
    (plan.entry.is_some() == sheet.start.is_some() && apart(&plan, sheet)).then_some(plan)
}

/// Turns a curve so that it leads from one state to the other; nothing if it touches none of them, or one alone.
fn directed(curve: &mut [Point], [from, to]: [(Point, f64); 2]) -> Option<()> {
    let touches = |at: Point, (middle, radius): (Point, f64)| (at.distance(middle) - radius).abs() < NEAR;
    let leads = |first: Point, last: Point| touches(first, from) && touches(last, to);
    let (first, last) = (curve[0], curve[curve.len() - 1]);
    if !leads(first, last) {
        curve.reverse();
    }
    (leads(first, last) || leads(last, first)).then_some(())
}

/// The place of a state in the list, by its name in the graph.
fn place(name: &str) -> Option<usize> {
    name.strip_prefix('n')?.parse().ok()
}

/// An arrow's way: the words `edge`, the ends, the number of points, the points, and for a text a word and the place of
/// its middle.
fn route(words: &[&str], labelled: bool) -> Option<Route> {
    let count: usize = words.get(3)?.parse().ok().filter(|count| count % 3 == 1 && (4..10_000).contains(count))?;
    let points = words.get(4..4 + 2 * count)?;
    let curve = points.chunks(2).map(|pair| point(pair[0], pair[1])).collect::<Option<_>>()?;
    let label = match words[4 + 2 * count..] {
        [_, x, y, _, _] if labelled => Some(point(x, y)?),
        [_, _] if !labelled => None,
        _ => return None,
    };
    Some(Route { curve, label })
}

/// Whether no two states overlap.
fn apart(plan: &Plan, sheet: &Sheet) -> bool {
    let gap = |k: usize, l: usize| plan.nodes[k].distance(plan.nodes[l]) - sheet.radii[k] - sheet.radii[l];
    (0..plan.nodes.len()).all(|k| (0..k).all(|l| gap(k, l) > 0.0))
}
