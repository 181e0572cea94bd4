//! Drawings of the examples' answers and of larger ones: well-formed, whole, and without overlaps, with Graphviz and
//! without.

mod cases;
mod graphs;
mod xml;

use desk::picture::{svg, Arrow, Graph, Node, Picture, MOST};
use graphs::Named;
use std::os::unix::fs::PermissionsExt;
use xml::Element;

/// Writes a drawing and its legend where somebody can look at them.
fn kept(name: &str, picture: &Picture) {
    let folder = concat!(env!("CARGO_TARGET_TMPDIR"), "/pictures");
    std::fs::create_dir_all(folder).unwrap();
    std::fs::write(format!("{folder}/{name}.svg"), &picture.svg).unwrap();
    let legend = picture.legend.iter().map(|(name, lines)| format!("{name}: {}\n", lines.join("; ")));
    std::fs::write(format!("{folder}/{name}.txt"), legend.collect::<String>()).unwrap();
}

/// All numbers of a text.
fn numbers(text: &str) -> Vec<f64> {
    let parts = text.split(|c: char| !(c.is_ascii_digit() || c == '.' || c == '-'));
    parts.filter(|part| !part.is_empty()).map(|part| part.parse().expect("a number")).collect()
}

/// All points of the drawing: of curves, heads, circles' edges and texts.
fn points(root: &Element) -> Vec<(f64, f64)> {
    let mut points = vec![];
    for element in root.all() {
        let number = |name: &str| numbers(element.attribute(name).unwrap())[0];
        match &*element.name {
            "path" => points.extend(numbers(element.attribute("d").unwrap()).chunks(2).map(|pair| (pair[0], pair[1]))),
            "polygon" => {
                points.extend(numbers(element.attribute("points").unwrap()).chunks(2).map(|pair| (pair[0], pair[1])))
            }
            "tspan" => points.push((number("x"), number("y"))),
            "circle" => {
                let (x, y, r) = (number("cx"), number("cy"), number("r"));
                points.extend([(x - r, y), (x + r, y), (x, y - r), (x, y + r)]);
            }
            _ => {}
        }
    }
    points
}

/// The circles of the states: the middle and the radius.
fn circles(root: &Element) -> Vec<(f64, f64, f64)> {
    let states = root.all().into_iter().filter(|element| element.classes().contains(&"state"));
    let circle = |state: &Element| {
        let outer = state.children.iter().find(|child| child.name == "circle").expect("a state is a circle");
        let [x, y, r] = ["cx", "cy", "r"].map(|name| numbers(outer.attribute(name).unwrap())[0]);
        (x, y, r)
    };
    states.map(circle).collect()
}

/// Holds the frame of a drawing to its promises.
fn check_frame(root: &Element) {
    assert_eq!(root.name, "svg");
    for (name, value) in [("id", "picture"), ("role", "img"), ("xmlns", "http://www.w3.org/2000/svg")] {
        assert_eq!(root.attribute(name), Some(value));
    }
    let heads: Vec<&str> = root.children.iter().take(3).map(|child| &*child.name).collect();
    assert_eq!(heads, ["title", "desc", "style"]);
    let sight = numbers(root.attribute("viewBox").unwrap());
    let size = ["width", "height"].map(|name| numbers(root.attribute(name).unwrap())[0]);
    assert_eq!(size, sight[2..4]);
    for (x, y) in points(root) {
        let inside = x >= sight[0] && x <= sight[0] + sight[2] && y >= sight[1] && y <= sight[1] + sight[3];
        assert!(inside, "({x}, {y}) lies in {sight:?}");
    }
}

/// Holds the states and arrows of a drawing to the graph's.
fn check_parts(root: &Element, graph: &Graph, picture: &Picture) {
    let all = root.all();
    let count = |class: &str| all.iter().filter(|element| element.classes().contains(&class)).count();
    assert_eq!((count("state"), count("move")), (graph.nodes.len(), graph.arrows.len()));
    let found = |id: String| {
        let with: Vec<&&Element> = all.iter().filter(|element| element.attribute("id") == Some(&id)).collect();
        assert_eq!(with.len(), 1, "{id} is there once");
        *with[0]
    };
    for node in &graph.nodes {
        let state = found(format!("state-{}", node.state));
        for (class, has) in [("state", true), ("start", node.start), ("goal", node.goal), ("lost", node.lost)] {
            assert_eq!(state.classes().contains(&class), has, "{class} of {node:?}");
        }
        assert_eq!(state.lines()[0], node.state.to_string());
        assert_eq!(state.lines().contains(&"goal".to_string()), node.goal);
    }
    for arrow in &graph.arrows {
        let drawn = found(format!("move-{}-{}", arrow.from, arrow.to));
        assert_eq!(drawn.classes().contains(&"stray"), arrow.stray);
        let name = format!("{} → {}", arrow.from, arrow.to);
        match picture.legend.iter().find(|entry| entry.0 == name) {
            Some((_, lines)) => {
                assert_eq!(*lines, arrow.lines);
                assert!(drawn.lines().iter().all(|line| line == ".." || lines.contains(line)), "{name}");
                assert!(drawn.lines().last().is_none_or(|line| line == ".."), "{name}");
            }
            None => assert_eq!(drawn.lines(), arrow.lines, "{name}"),
        }
    }
}

/// The points of an arrow's curve, close together, and the tip of its head.
fn way(drawn: &Element) -> (Vec<(f64, f64)>, (f64, f64)) {
    let child = |name: &str| drawn.children.iter().find(|child| child.name == name).expect("an arrow's part");
    let pairs = |text: &str| numbers(text).chunks(2).map(|pair| (pair[0], pair[1])).collect::<Vec<_>>();
    let ends = pairs(child("path").attribute("d").unwrap());
    let mut points = vec![];
    for piece in ends.windows(4).step_by(3) {
        for t in (0..=40).map(|k| k as f64 / 40.0) {
            let s = 1.0 - t;
            let shares = [s * s * s, 3.0 * s * s * t, 3.0 * s * t * t, t * t * t];
            let sum = |part: fn(&(f64, f64)) -> f64| piece.iter().zip(shares).map(|(at, share)| part(at) * share).sum();
            points.push((sum(|at| at.0), sum(|at| at.1)));
        }
    }
    (points, pairs(child("polygon").attribute("points").unwrap())[0])
}

/// Holds the arrows to their ends; without Graphviz they also run through no other state. An arrow and its reverse are
/// apart somewhere.
fn check_ways(root: &Element, graph: &Graph, plain: bool) {
    let circles = circles(root);
    let state = |state: usize| circles[graph.nodes.iter().position(|node| node.state == state).unwrap()];
    let far = |a: (f64, f64), b: (f64, f64, f64)| (a.0 - b.0).hypot(a.1 - b.1) - b.2;
    let all = root.all();
    let drawn = |arrow: &Arrow| {
        let id = format!("move-{}-{}", arrow.from, arrow.to);
        way(all.iter().find(|element| element.attribute("id") == Some(&id)).unwrap())
    };
    for arrow in &graph.arrows {
        let (points, tip) = drawn(arrow);
        let (from, to) = (state(arrow.from), state(arrow.to));
        assert!(far(points[0], from).abs() < 6.0 && far(tip, to).abs() < 6.0, "{arrow:?} has its ends");
        for node in graph.nodes.iter().filter(|node| plain && ![arrow.from, arrow.to].contains(&node.state)) {
            let near = points.iter().map(|at| far(*at, state(node.state))).fold(f64::INFINITY, f64::min);
            assert!(near > -1.0, "{arrow:?} runs through {node:?}");
        }
        let back = graph.arrows.iter().find(|other| (other.to, other.from) == (arrow.from, arrow.to));
        if let Some(back) = back.filter(|back| back.from != back.to) {
            let other = drawn(back).0;
            let gap =
                |at: &(f64, f64)| other.iter().map(|b| (at.0 - b.0).hypot(at.1 - b.1)).fold(f64::INFINITY, f64::min);
            assert!(points.iter().map(gap).fold(0.0, f64::max) > 3.0, "{arrow:?} and {back:?}");
        }
    }
}

/// Draws a graph and holds the drawing to all promises.
fn checked(name: &str, graph: &Graph, dot: Option<&str>) -> Picture {
    let picture = svg(graph, dot).unwrap_or_else(|| panic!("{name} is drawn"));
    let root = xml::read(&picture.svg);
    for word in ["href", "url(", "xlink", "@import", "http"] {
        let allowed = (word == "http") as usize;
        assert_eq!(picture.svg.matches(word).count(), allowed, "{word} in {name}");
    }
    check_frame(&root);
    check_parts(&root, graph, &picture);
    check_ways(&root, graph, dot.is_none());
    let circles = circles(&root);
    for (k, a) in circles.iter().enumerate() {
        for b in &circles[..k] {
            assert!((a.0 - b.0).hypot(a.1 - b.1) > a.2 + b.2 + 2.0, "{a:?} and {b:?} in {name}");
        }
    }
    assert_eq!(svg(graph, dot).as_ref(), Some(&picture), "{name} comes out the same twice");
    picture
}

/// Graphviz's program, where this computer has one.
fn graphviz() -> Option<&'static str> {
    let found = std::process::Command::new("dot").arg("-V").output().is_ok();
    if !found {
        println!("no Graphviz here: its drawings are not checked");
    }
    found.then_some("dot")
}

/// A program for the test: a shell script.
fn script(name: &str, text: &str) -> String {
    let path = format!("{}/{name}", env!("CARGO_TARGET_TMPDIR"));
    std::fs::write(&path, format!("#!/bin/sh\n{text}\n")).unwrap();
    std::fs::set_permissions(&path, std::fs::Permissions::from_mode(0o755)).unwrap();
    path
}

/// A small graph with all that there is: a loop, an arrow and its reverse, a stray one, marks of the language in the
/// text.
fn small() -> Graph {
    let node = |state, start, goal, lost| Node { state, start, goal, lost };
    let arrow = |from, to, lines: &[&str], stray| {
        let lines = lines.iter().map(|line| line.to_string()).collect();
        Arrow { from, to, lines, stray }
    };
    Graph {
        nodes: vec![
            node(0, true, false, false),
            node(12, false, true, false),
            node(127, false, false, true),
            node(3, false, false, false),
        ],
        arrows: vec![
            arrow(0, 12, &["cue & !feed | mic / break deck", "<&>\" / ]]>"], false),
            arrow(0, 3, &["!cue / -"], false),
            arrow(3, 0, &["cue & (feed | mic) / deck", "1 / -", "é & → / -"], false),
            arrow(0, 0, &["news / bed"], false),
            arrow(3, 127, &[], true),
            arrow(0, 127, &[], true),
        ],
    }
}

#[test]
fn drawings_keep_their_promises() {
    for Named { name, graph } in graphs::all() {
        for (kind, dot) in [("plain", None), ("dot", graphviz())] {
            if kind == "plain" || dot.is_some() {
                let picture = checked(&name, &graph, dot);
                kept(&format!("{name}-{kind}"), &picture);
                println!(
                    "{name} {kind}: {} states, {} arrows, {} in the legend",
                    graph.nodes.len(),
                    graph.arrows.len(),
                    picture.legend.len()
                );
            }
        }
    }
}

#[test]
fn graphviz_is_asked() {
    let Some(dot) = graphviz() else { return };
    for graph in [small(), graphs::made(40, 60, false), graphs::made(12, 8, true)] {
        assert_ne!(svg(&graph, Some(dot)), svg(&graph, None), "the two ways to draw differ");
    }
}

#[test]
fn small_graphs_hold_all_text() {
    for dot in [None, graphviz()] {
        let picture = checked("small", &small(), dot);
        assert!(picture.legend.is_empty());
        assert!(picture.svg.contains("&lt;&amp;&gt;&quot; / ]]&gt;"));
        let one = Graph { nodes: vec![small().nodes[0].clone()], arrows: vec![] };
        checked("one", &one, dot);
        let without = Graph {
            nodes: small().nodes.iter().map(|node| Node { start: false, ..node.clone() }).collect(),
            arrows: vec![],
        };
        checked("no start and no arrows", &without, dot);
    }
}

#[test]
fn too_many_states_give_nothing() {
    assert_eq!(svg(&Graph::default(), None), None);
    assert_eq!(svg(&graphs::made(MOST + 1, 0, false), None), None);
    for dot in [None, graphviz()] {
        checked("all that may be", &graphs::made(MOST, 80, true), dot);
    }
}

#[test]
fn long_labels_are_in_the_legend() {
    let mut graph = small();
    graph.arrows[0].lines = (0..9).map(|k| format!("line {k}")).collect();
    graph.arrows[1].lines = vec!["x".repeat(65), "short".to_string()];
    for dot in [None, graphviz()] {
        let picture = checked("long labels", &graph, dot);
        let names: Vec<&str> = picture.legend.iter().map(|entry| &*entry.0).collect();
        assert_eq!(names, ["0 → 3", "0 → 12"]);
        assert!(picture.svg.contains("line 4</tspan>") && !picture.svg.contains("line 5"));
        assert!(picture.svg.contains("short</tspan>") && !picture.svg.contains("xxx"));
    }
}

#[test]
fn a_failing_program_is_done_without() {
    let garbage = script("garbage", "head -c 100000 /dev/urandom");
    let lines =
        script("lines", "echo 'graph 1 1 1'; echo 'node n0 a b'; echo 'edge n0 n1 4'; echo 'node n99 1 1'; echo stop");
    let endless = script("endless", "yes 'node n0 1 1 1 1'");
    let piled = script("piled", "dot \"$@\" | sed 's/^node n\\([0-9]*\\) [0-9.]* [0-9.]*/node n\\1 1 1/'");
    let less = script("less", "dot \"$@\" | grep -v '^edge n0 n0'");
    let failing = script("failing", "dot \"$@\"; exit 1");
    let plain = svg(&small(), None);
    for program in ["/nonexistent", "false", "true", "cat", "", &garbage, &lines, &endless, &piled, &less, &failing] {
        assert_eq!(svg(&small(), Some(program)), plain, "{program}");
    }
    let states = Graph { arrows: vec![], ..small() };
    assert_eq!(svg(&states, Some(&piled)), svg(&states, None), "states on top of each other");
}
