//! The largest count of marked edges on any path of a graph of at most 128 nodes. Exact:
//! reachability finds every cycle, and where none has a marked edge the longest count is found by
//! repeated improvement. Nothing is sampled.

/// An edge; `marked` edges are the ones that count.
#[derive(Clone, Copy, Debug, PartialEq, Eq, PartialOrd, Ord)]
pub struct Edge {
    pub from: usize,
    pub to: usize,
    pub marked: bool,
}

/// For each node the set of nodes that a path of one or more edges leads to.
fn reachable(nodes: usize, edges: &[Edge]) -> Vec<u128> {
    let mut reach = vec![0u128; nodes];
    for edge in edges {
        reach[edge.from] |= 1 << edge.to;
    }
    for middle in 0..nodes {
        for from in 0..nodes {
            if reach[from] >> middle & 1 == 1 {
                reach[from] |= reach[middle];
            }
        }
    }
    reach
}

/// The edges that some path from a node takes.
pub fn edges_from(nodes: usize, edges: &[Edge], start: usize) -> Vec<Edge> {
    let reached = reachable(nodes, edges)[start] | 1 << start;
    edges.iter().filter(|edge| reached >> edge.from & 1 == 1).copied().collect()
}

/// The largest count of marked edges on a path, or nothing if paths have any number of them
/// (a cycle has a marked edge).
pub fn most_marked(nodes: usize, edges: &[Edge]) -> Option<usize> {
    let reach = reachable(nodes, edges);
    let on_cycle = |edge: &Edge| edge.to == edge.from || reach[edge.to] >> edge.from & 1 == 1;
    if edges.iter().any(|edge| edge.marked && on_cycle(edge)) {
        return None;
    }
    let mut most = vec![0; nodes];
    loop {
        let mut changed = false;
        for edge in edges {
            let count = most[edge.to] + edge.marked as usize;
            if count > most[edge.from] {
                most[edge.from] = count;
                changed = true;
            }
        }
        if !changed {
            return Some(most.into_iter().max().unwrap_or(0));
        }
    }
}

/// The largest count of marked edges directly one after the other on a path, or nothing if there
/// is no largest (a cycle of marked edges only).
pub fn most_in_a_row(nodes: usize, edges: &[Edge]) -> Option<usize> {
    let marked: Vec<Edge> = edges.iter().filter(|edge| edge.marked).copied().collect();
    most_marked(nodes, &marked)
}
