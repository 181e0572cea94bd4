//! A plan as an SVG.

use super::plan::{headed, Plan, Point, Sheet, LINE, TEXT};
use super::{Graph, Node};
use crate::html::escaped;

/// The looks: also of the state that a play is in, and of the move that it took last. On paper a drawing is no larger
/// than a page.
const STYLE: &str = "\
#picture{background:#fff;font-family:Helvetica,Arial,'Liberation Sans',sans-serif}\
#picture path,#picture .border{fill:none}\
#picture path{stroke:#333;stroke-width:1.4}\
#picture polygon{fill:#333}\
#picture circle{fill:#fff;stroke:#111;stroke-width:1.6}\
#picture .goal circle{fill:#e3f1e3}\
#picture .lost circle{fill:#e0e0e0;stroke:#777;stroke-dasharray:4 3}\
#picture circle.border{fill:none}\
#picture text{text-anchor:middle;fill:#000}\
#picture .state text{font-size:16px;font-weight:bold}\
#picture .state .word{font-size:10px;font-weight:normal}\
#picture .lost text{fill:#555}\
#picture .move text{font-size:12px;paint-order:stroke;stroke:#fff;stroke-width:4px;stroke-linejoin:round}\
#picture .stray path{stroke:#8a8a8a;stroke-width:1.2;stroke-dasharray:5 3}\
#picture .stray polygon{fill:#8a8a8a}\
#picture .taken path{stroke:#c03a00;stroke-width:3.5;stroke-dasharray:none}\
#picture .taken polygon{fill:#c03a00;stroke:#c03a00;stroke-width:3}\
#picture .taken text{fill:#9c2f00}\
#picture .here circle{fill:#0b4a94;stroke:#0b4a94;stroke-dasharray:none}\
#picture .here circle.border{fill:none;stroke:#fff}\
#picture .here text{fill:#fff}\
@media print{#picture{max-width:100%;max-height:240mm;break-inside:avoid}}";

/// The length and the width of an arrow's head.
const HEAD: (f64, f64) = (9.0, 7.0);

/// The radius of a state, by what stands in it.
pub fn radius(node: &Node) -> f64 {
    let wide = if node.state > 99 { 2.0 } else { 0.0 };
    let words = [17.0, 21.0, 26.0][node.start as usize + node.goal as usize];
    words + wide
}

/// A number with one place after the point at most.
fn number(value: f64) -> String {
    let tenths = (value * 10.0).round() as i64;
    let sign = if tenths < 0 { "-" } else { "" };
    let (whole, rest) = (tenths.abs() / 10, tenths.abs() % 10);
    match rest {
        0 => format!("{sign}{whole}"),
        _ => format!("{sign}{whole}.{rest}"),
    }
}

/// A point as two numbers.
fn pair(at: Point) -> String {
    format!("{},{}", number(at.x), number(at.y))
}

/// The drawing: arrows first, then states.
pub fn draw(graph: &Graph, labels: &[Vec<String>], sheet: &Sheet, plan: &Plan) -> String {
    let (low, high) = plan.corners(sheet);
    let (left, top) = (low.x.floor(), low.y.floor());
    let [width, height] = [high.x.ceil() - left, high.y.ceil() - top].map(number);
    let sight = format!("{} {} {width} {height}", number(left), number(top));
    let frame = format!("id=\"picture\" role=\"img\" viewBox=\"{sight}\" width=\"{width}\" height=\"{height}\"");
    let mut text = format!("<svg xmlns=\"http://www.w3.org/2000/svg\" {frame}>\n<title>States and moves</title>\n");
    text += &format!("<desc>{}</desc>\n<style>{STYLE}</style>\n", described(graph));
    if let Some(entry) = &plan.entry {
        text += &format!("<g class=\"entry\">{}</g>\n", arrow(entry));
    }
    for k in 0..graph.arrows.len() {
        text += &route(graph, labels, plan, k);
    }
    for ((node, at), radius) in graph.nodes.iter().zip(&plan.nodes).zip(&sheet.radii) {
        text += &state(node, *at, *radius);
    }
    text + "</svg>\n"
}

/// The drawing in a few words.
fn described(graph: &Graph) -> String {
    let list = |word: &str, has: &dyn Fn(&Node) -> bool| {
        let states: Vec<String> =
            graph.nodes.iter().filter(|node| has(node)).map(|node| node.state.to_string()).collect();
        if states.is_empty() {
            return String::new();
        }
        format!(" {word}: {}.", states.join(", "))
    };
    let (start, goal, lost) = (list("Start", &|n| n.start), list("Goal", &|n| n.goal), list("Grey", &|n| n.lost));
    format!("States as circles, moves as arrows. States: {}.{start}{goal}{lost}", graph.nodes.len())
}

/// A curve with its head.
fn arrow(curve: &[Point]) -> String {
    let (rest, head) = headed(curve, HEAD.0, HEAD.1);
    let mut way = format!("M{}", pair(rest[0]));
    for piece in rest[1..].chunks(3) {
        let points: Vec<String> = piece.iter().map(|at| pair(*at)).collect();
        way += &format!("C{}", points.join(" "));
    }
    let corners: Vec<String> = head.iter().map(|at| pair(*at)).collect();
    format!("<path d=\"{way}\"/><polygon points=\"{}\"/>", corners.join(" "))
}

/// An arrow with its lines of text.
fn route(graph: &Graph, labels: &[Vec<String>], plan: &Plan, k: usize) -> String {
    let (given, lines, route) = (&graph.arrows[k], &labels[k], &plan.routes[k]);
    let stray = if given.stray { " stray" } else { "" };
    let (from, to) = (given.from, given.to);
    let mut text = format!("<g class=\"move{stray}\" id=\"move-{from}-{to}\">{}", arrow(&route.curve));
    if let Some(at) = route.label {
        let top = at.y - (lines.len() as f64 - 1.0) * LINE / 2.0 + 0.35 * TEXT;
        let part = |(k, line): (usize, &String)| {
            let y = number(top + k as f64 * LINE);
            format!("<tspan x=\"{}\" y=\"{y}\">{}</tspan>", number(at.x), escaped(line))
        };
        text += &format!("<text>{}</text>", lines.iter().enumerate().map(part).collect::<String>());
    }
    text + "</g>\n"
}

/// A state: its number, and under it whether it is the start or a goal.
fn state(node: &Node, at: Point, radius: f64) -> String {
    let marks = [(node.start, "start"), (node.goal, "goal"), (node.lost, "lost")];
    let classes: String = marks.iter().filter(|(has, _)| *has).map(|(_, word)| format!(" {word}")).collect();
    let words: Vec<&str> = marks[..2].iter().filter(|(has, _)| *has).map(|(_, word)| *word).collect();
    let (x, mut y) = (number(at.x), at.y + 5.5 - 5.0 * words.len() as f64);
    let mut text = format!("<g class=\"state{classes}\" id=\"state-{}\">", node.state);
    text += &format!("<circle cx=\"{x}\" cy=\"{}\" r=\"{}\"/>", number(at.y), number(radius));
    if node.goal {
        let inner = number(radius - 3.5);
        text += &format!("<circle class=\"border\" cx=\"{x}\" cy=\"{}\" r=\"{inner}\"/>", number(at.y));
    }
    text += &format!("<text><tspan x=\"{x}\" y=\"{}\">{}</tspan>", number(y), node.state);
    for word in words {
        y += 10.0;
        text += &format!("<tspan class=\"word\" x=\"{x}\" y=\"{}\">{word}</tspan>", number(y));
    }
    text + "</text></g>\n"
}
