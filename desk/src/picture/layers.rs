//! A plan in plain layers, without Graphviz.
//!
//! States stand in even layers, by their distance from the start; states without a way out stand below all that lead to
//! them. An arrow has a slot in every layer between its ends, and its text is at a slot in an odd layer; an arrow
//! within a layer has a slot in the odd layer below. The slots of a layer are ordered by the mean places of their
//! neighbours, and placed near them without overlaps. Curves change their place only between layers, so they run
//! through no state and hardly any text.

use super::plan::{first_part, Plan, Point, Route, Sheet};

/// A state, or the place at which an arrow passes a layer: how far it reaches to both sides, its height, and where it
/// is.
struct Slot {
    layer: usize,
    left: f64,
    right: f64,
    height: f64,
    x: f64,
    state: bool,
}

/// The layers while they are made: the slots, those of each layer in order, each arrow's slots, and who is joined to
/// whom.
struct Layers {
    slots: Vec<Slot>,
    rows: Vec<Vec<usize>>,
    chains: Vec<Vec<usize>>,
    above: Vec<Vec<usize>>,
    below: Vec<Vec<usize>>,
}

/// Where an arrow leaves or enters a state: the arrow, whether that is its beginning, and the angle from the vertical.
struct Port {
    link: usize,
    begins: bool,
    angle: f64,
}

/// The room between neighbours in a layer, between passing arrows without text, and the least room between layers.
const BESIDE: f64 = 14.0;
const PASSING: f64 = 7.0;
const BETWEEN: f64 = 18.0;

/// How much more room there is between layers for each unit that an arrow goes aside there, and the most of it.
const ASLANT: f64 = 0.14;
const WIDEST: f64 = 60.0;

/// How far a loop reaches from its state's border, and how long the arrow into the start is.
const LOOP: f64 = 24.0;
const ENTRY: f64 = 30.0;

/// The largest angle from the vertical at which an arrow leaves a state, with a state or a text near on that side and
/// without; how near; and the angle between two arrows where there is room.
const STEEP: f64 = 0.75;
const FLAT: f64 = 1.2;
const NEAR: f64 = 140.0;
const ASIDE: f64 = 0.45;

/// The plan, downwards or across.
pub fn plan(sheet: &Sheet, across: bool) -> Plan {
    let mut layers = Layers::new(sheet, across);
    layers.order();
    layers.place();
    let plan = layers.drawn(sheet, across);
    if across {
        plan.turned()
    } else {
        plan
    }
}

/// The layer of each state, without the layers for arrows alone.
fn depths(sheet: &Sheet) -> Vec<usize> {
    let mut depths = vec![None; sheet.radii.len()];
    for root in sheet.start.into_iter().chain(0..sheet.radii.len()) {
        let mut queue = vec![root];
        let mut at = 0;
        depths[root] = depths[root].or(Some(0));
        while at < queue.len() {
            let (state, depth) = (queue[at], depths[queue[at]].map(|depth: usize| depth + 1));
            for link in sheet.links.iter().filter(|link| link.from == state) {
                if depths[link.to].is_none() {
                    depths[link.to] = depth;
                    queue.push(link.to);
                }
            }
            at += 1;
        }
    }
    let reached: Vec<usize> = depths.into_iter().flatten().collect();
    let links = || sheet.links.iter().filter(|link| link.from != link.to);
    let last = |state| !links().any(|link| link.from == state);
    let lowest = |state| links().filter(|link| link.to == state).map(|link| reached[link.from] + 1).max();
    (0..reached.len()).map(|state| lowest(state).filter(|_| last(state)).unwrap_or(reached[state])).collect()
}

/// The places nearest to the wanted ones at which each is so far from the one before: least squares, by pooling
/// neighbours.
fn spread(wanted: &[(f64, f64)], gaps: &[f64]) -> Vec<f64> {
    let mut offsets = vec![0.0];
    for gap in gaps {
        offsets.push(offsets[offsets.len() - 1] + gap);
    }
    let mut pools: Vec<(f64, f64, usize)> = vec![];
    for ((place, weight), offset) in wanted.iter().zip(&offsets) {
        let mut pool = (place - offset, *weight, 1);
        while let Some(last) = pools.pop_if(|last| last.0 > pool.0) {
            let weight = last.1 + pool.1;
            pool = ((last.0 * last.1 + pool.0 * pool.1) / weight, weight, last.2 + pool.2);
        }
        pools.push(pool);
    }
    let shared = pools.iter().flat_map(|pool| std::iter::repeat_n(pool.0, pool.2));
    shared.zip(&offsets).map(|(place, offset)| place + offset).collect()
}

/// A cubic piece between two ends that leaves each of them in its direction.
fn piece((from, out): End, (to, back): End) -> [Point; 4] {
    let reach = |out: Point| ((to.y - from.y).abs() * 0.5).max(8.0).min(if out.x == 0.0 { 200.0 } else { 50.0 });
    let along = |at: Point, out: Point| Point { x: at.x + out.x * reach(out), y: at.y + out.y * reach(out) };
    [from, along(from, out), along(to, back), to]
}

impl Layers {
    /// The slots of all states and arrows, in the order in which they come.
    fn new(sheet: &Sheet, across: bool) -> Layers {
        let depths = depths(sheet);
        let layers = 2 * depths.iter().max().map_or(0, |depth| depth + 1);
        let mut made =
            Layers { slots: vec![], rows: vec![vec![]; layers], chains: vec![], above: vec![], below: vec![] };
        for (depth, radius) in depths.iter().zip(&sheet.radii) {
            made.push(2 * depth, *radius, *radius, 2.0 * radius, true);
        }
        for link in &sheet.links {
            let size = link.label.map(|(width, height)| if across { (height, width) } else { (width, height) });
            let chain = made.chain(link.from, link.to, size);
            made.chains.push(chain);
        }
        made
    }

    /// A new slot at the end of its layer.
    fn push(&mut self, layer: usize, left: f64, right: f64, height: f64, state: bool) -> usize {
        let new = self.slots.len();
        self.slots.push(Slot { layer, left, right, height, x: 0.0, state });
        self.rows[layer].push(new);
        self.above.push(vec![]);
        self.below.push(vec![]);
        new
    }

    /// Notes that two slots of neighbouring layers are joined.
    fn join(&mut self, a: usize, b: usize) {
        let (high, low) = if self.slots[a].layer < self.slots[b].layer { (a, b) } else { (b, a) };
        self.below[high].push(low);
        self.above[low].push(high);
    }

    /// An arrow's slots, from its beginning to its end; a loop has none, and widens its state.
    fn chain(&mut self, from: usize, to: usize, size: Option<(f64, f64)>) -> Vec<usize> {
        let (a, b) = (self.slots[from].layer, self.slots[to].layer);
        if from == to {
            let slot = &mut self.slots[from];
            slot.right += LOOP + size.map_or(0.0, |size| size.0 + 4.0);
            slot.height = slot.height.max(size.map_or(0.0, |size| size.1));
            return vec![];
        }
        let layers: Vec<usize> = match a.cmp(&b) {
            std::cmp::Ordering::Less => (a + 1..b).collect(),
            std::cmp::Ordering::Equal => vec![a + 1],
            std::cmp::Ordering::Greater => (b + 1..a).rev().collect(),
        };
        let middle = layers.len() / 2 / 2 * 2;
        let mut chain = vec![];
        for (k, layer) in layers.iter().enumerate() {
            let (left, right, height) = match size.filter(|_| k == middle) {
                Some((width, height)) if a == b => (width / 2.0, width / 2.0, height + 4.0),
                Some((width, height)) => (2.0, width + 6.0, height + 2.0),
                None => (2.0, 2.0, 0.0),
            };
            chain.push(self.push(*layer, left, right, height, false));
        }
        let ends = [&[from], &chain[..], &[to]].concat();
        ends.windows(2).for_each(|pair| self.join(pair[0], pair[1]));
        chain
    }

    /// Each slot's place in its layer.
    fn ranks(&self) -> Vec<usize> {
        let mut ranks = vec![0; self.slots.len()];
        for row in &self.rows {
            row.iter().enumerate().for_each(|(k, slot)| ranks[*slot] = k);
        }
        ranks
    }

    /// Orders the layers: sweeps up and down, of which the one with the fewest crossings stays.
    fn order(&mut self) {
        let mut best = (usize::MAX, vec![]);
        for sweep in 0..30 {
            self.sweep(sweep % 2 == 0);
            self.exchange();
            let crossings = self.crossings();
            if crossings < best.0 {
                best = (crossings, self.rows.clone());
            }
        }
        self.rows = best.1;
    }

    /// Orders each layer by the mean places of the neighbours in the layer before, from the top or from the bottom.
    fn sweep(&mut self, down: bool) {
        for k in 0..self.rows.len() {
            let row = if down { k } else { self.rows.len() - 1 - k };
            let ranks = self.ranks();
            let near = if down { &self.above } else { &self.below };
            let mean = |slot: usize| match &near[slot][..] {
                [] => ranks[slot] as f64,
                near => near.iter().map(|slot| ranks[*slot] as f64).sum::<f64>() / near.len() as f64,
            };
            self.rows[row].sort_by(|a, b| mean(*a).total_cmp(&mean(*b)));
        }
    }

    /// Exchanges neighbours in a layer as long as that takes crossings away.
    fn exchange(&mut self) {
        for _ in 0..6 {
            let mut ranks = self.ranks();
            let mut changed = false;
            for row in 0..self.rows.len() {
                for k in 1..self.rows[row].len() {
                    let (a, b) = (self.rows[row][k - 1], self.rows[row][k]);
                    let both = |a, b| crossed(&self.above, &ranks, a, b) + crossed(&self.below, &ranks, a, b);
                    if both(b, a) < both(a, b) {
                        self.rows[row].swap(k - 1, k);
                        ranks.swap(a, b);
                        changed = true;
                    }
                }
            }
            if !changed {
                break;
            }
        }
    }

    /// How often arrows cross between layers.
    fn crossings(&self) -> usize {
        let ranks = self.ranks();
        let pairs = |row: &[usize]| -> usize {
            (1..row.len())
                .map(|k| row[..k].iter().map(|a| crossed(&self.below, &ranks, *a, row[k])).sum::<usize>())
                .sum()
        };
        self.rows.iter().map(|row| pairs(row)).sum()
    }

    /// Places the slots of each layer near their neighbours, again and again; arrows are drawn straight rather than
    /// short.
    fn place(&mut self) {
        for sweep in 0..80 {
            for k in 0..self.rows.len() {
                let row = if sweep % 2 == 1 { self.rows.len() - 1 - k } else { k };
                let wanted: Vec<(f64, f64)> = self.rows[row].iter().map(|slot| self.wanted(*slot, sweep)).collect();
                let reach = |pair: &[usize]| {
                    let (a, b) = (&self.slots[pair[0]], &self.slots[pair[1]]);
                    a.right + if a.height + b.height == 0.0 { PASSING } else { BESIDE } + b.left
                };
                let gaps: Vec<f64> = self.rows[row].windows(2).map(reach).collect();
                for (slot, x) in self.rows[row].iter().zip(spread(&wanted, &gaps)) {
                    self.slots[*slot].x = x;
                }
            }
        }
    }

    /// Where a slot should stand, and how much that matters: first by the layer before, later by both neighbouring
    /// layers.
    fn wanted(&self, slot: usize, sweep: usize) -> (f64, f64) {
        let (mut sum, mut total) = (self.slots[slot].x * 0.01, 0.01);
        let sides = [(sweep % 2 == 0, &self.above), (sweep % 2 == 1, &self.below)];
        for (first, near) in sides {
            for other in near[slot].iter().filter(|_| first || sweep > 8) {
                let weight = match (self.slots[slot].state, self.slots[*other].state) {
                    (false, false) => 6.0,
                    _ => 2.0,
                };
                sum += weight * self.slots[*other].x;
                total += weight;
            }
        }
        (sum / total, total)
    }

    /// The top and the bottom of each layer: between layers there is more room where arrows go far to the side.
    fn heights(&self) -> Vec<(f64, f64)> {
        let mut y = 0.0;
        let mut heights = vec![];
        for row in &self.rows {
            let height = row.iter().map(|slot| self.slots[*slot].height).fold(0.0, f64::max);
            heights.push((y, y + height));
            let aside = |slot: &usize| {
                let far = |other: &usize| (self.slots[*slot].x - self.slots[*other].x).abs();
                self.below[*slot].iter().map(far).fold(0.0, f64::max)
            };
            y += height + BETWEEN + (row.iter().map(aside).fold(0.0, f64::max) * ASLANT).min(WIDEST);
        }
        heights
    }

    /// The largest angles from the vertical at which arrows leave a state, to the left and to the right: less beside a
    /// near neighbour.
    fn limits(&self, state: usize) -> (f64, f64) {
        let own = &self.slots[state];
        let beside = |side: f64| {
            let gap = |other: &usize| side * (self.slots[*other].x - own.x);
            let near = |other: &usize| self.slots[*other].height > 0.0 && gap(other) > 0.0 && gap(other) < NEAR;
            if self.rows[own.layer].iter().any(near) {
                STEEP
            } else {
                FLAT
            }
        };
        (-beside(-1.0), beside(1.0))
    }

    /// The angles at which arrows leave and enter a state on one side.
    fn ports(&self, sheet: &Sheet, state: usize, below: bool) -> Vec<Port> {
        let (left, right) = self.limits(state);
        let mut ports = vec![];
        for (link, chain) in self.chains.iter().enumerate() {
            let ends = [(sheet.links[link].from, chain.first(), true), (sheet.links[link].to, chain.last(), false)];
            for (end, slot, begins) in ends {
                let Some(slot) = slot.map(|slot| &self.slots[*slot]).filter(|_| end == state) else { continue };
                if (slot.layer > self.slots[state].layer) == below {
                    let aside = slot.x - self.slots[state].x;
                    let angle = aside.atan2(sheet.radii[state] + 2.0 * BETWEEN);
                    ports.push(Port { link, begins, angle: angle.clamp(left, right) });
                }
            }
        }
        ports.sort_by(|a, b| a.angle.total_cmp(&b.angle));
        let room = ports.len().saturating_sub(1);
        let gap = ASIDE.min((right - left) / room.max(1) as f64);
        let wanted: Vec<(f64, f64)> = ports.iter().map(|port| (port.angle, 1.0)).collect();
        for (k, angle) in spread(&wanted, &vec![gap; room]).into_iter().enumerate() {
            let (least, most) = (left + gap * k as f64, right - gap * (room - k) as f64);
            ports[k].angle = angle.max(least).min(most.max(least));
        }
        ports
    }

    /// The plan with all curves.
    fn drawn(&self, sheet: &Sheet, across: bool) -> Plan {
        let heights = self.heights();
        let middle = |layer: usize| (heights[layer].0 + heights[layer].1) / 2.0;
        let nodes: Vec<Point> =
            (0..sheet.radii.len()).map(|k| Point { x: self.slots[k].x, y: middle(self.slots[k].layer) }).collect();
        let mut ends = vec![[None; 2]; sheet.links.len()];
        for (state, at) in nodes.iter().enumerate() {
            for below in [false, true] {
                for port in self.ports(sheet, state, below) {
                    let out = Point { x: port.angle.sin(), y: port.angle.cos() * if below { 1.0 } else { -1.0 } };
                    let radius = sheet.radii[state];
                    let border = Point { x: at.x + out.x * radius, y: at.y + out.y * radius };
                    ends[port.link][!port.begins as usize] = Some((border, out));
                }
            }
        }
        let route = |k: usize| match ends[k] {
            [Some(from), Some(to)] => self.route(sheet, k, &heights, (from, to), across),
            _ => looped(sheet, k, nodes[sheet.links[k].from], across),
        };
        let routes = (0..sheet.links.len()).map(route).collect();
        let entry = sheet.start.map(|start| {
            let tip = Point { x: nodes[start].x, y: nodes[start].y - sheet.radii[start] };
            let far = Point { x: tip.x, y: tip.y - ENTRY };
            vec![far, far.towards(tip, 0.3), far.towards(tip, 0.7), tip]
        });
        Plan { nodes, routes, entry }
    }

    /// An arrow's way between two states, and where its text is.
    fn route(&self, sheet: &Sheet, k: usize, heights: &[(f64, f64)], ends: (End, End), across: bool) -> Route {
        let (link, chain) = (&sheet.links[k], &self.chains[k]);
        let (a, b) = (self.slots[link.from].layer, self.slots[link.to].layer);
        let size = link.label.map(|(width, height)| if across { (height, width) } else { (width, height) });
        if a == b {
            let (slot, top) = (&self.slots[chain[0]], heights[a + 1].0);
            let curve = bow(ends, Point { x: slot.x, y: top });
            return Route { curve, label: size.map(|size| Point { x: slot.x, y: top + 4.0 + size.1 / 2.0 }) };
        }
        let slot = &self.slots[chain[chain.len() / 2 / 2 * 2]];
        let middle = (heights[slot.layer].0 + heights[slot.layer].1) / 2.0;
        let label = size.map(|size| Point { x: slot.x + 5.0 + size.0 / 2.0, y: middle });
        let mut all = [&[link.from], &chain[..], &[link.to]].concat();
        let (upper, lower) = if a < b { ends } else { (ends.1, ends.0) };
        if a > b {
            all.reverse();
        }
        let mut curve = self.down(&all, heights, upper, lower);
        if a > b {
            curve.reverse();
        }
        Route { curve, label }
    }

    /// A way down through slots, past those that it need not stop at.
    fn down(&self, slots: &[usize], heights: &[(f64, f64)], upper: End, lower: End) -> Vec<Point> {
        let (down, up) = (Point { x: 0.0, y: 1.0 }, Point { x: 0.0, y: -1.0 });
        let (mut curve, mut out, mut at) = (vec![upper.0], upper.1, 0);
        while at + 1 < slots.len() {
            let reached = |k: usize| {
                let slot = &self.slots[slots[k]];
                let end = (Point { x: slot.x, y: heights[slot.layer].0 }, up);
                piece((curve[curve.len() - 1], out), if k + 1 == slots.len() { lower } else { end })
            };
            let free = |k: &usize| {
                let texts = slots[at + 1..*k].iter().any(|slot| self.slots[*slot].height > 0.0);
                !texts && slots[at..=*k].iter().all(|slot| self.clear(*slot, heights, reached(*k)))
            };
            let next = (at + 2..slots.len()).rev().find(free).unwrap_or(at + 1);
            curve.extend(&reached(next)[1..]);
            if next + 1 < slots.len() {
                let top = curve[curve.len() - 1];
                let bottom = Point { y: heights[self.slots[slots[next]].layer].1, ..top };
                curve.extend([top.towards(bottom, 0.3), top.towards(bottom, 0.7), bottom]);
            }
            (out, at) = (down, next);
        }
        curve
    }

    /// Whether a piece of a curve passes a slot's layer between its neighbours.
    fn clear(&self, slot: usize, heights: &[(f64, f64)], piece: [Point; 4]) -> bool {
        let layer = self.slots[slot].layer;
        let (row, (top, bottom)) = (&self.rows[layer], heights[layer]);
        let rank = row.iter().position(|other| *other == slot).expect("a slot stands in its layer");
        let left = rank.checked_sub(1).map(|k| &self.slots[row[k]]).map(|slot| slot.x + slot.right + 4.0);
        let right = row.get(rank + 1).map(|k| &self.slots[*k]).map(|slot| slot.x - slot.left - 4.0);
        (0..=30).map(|k| first_part(piece, k as f64 / 30.0)[3]).all(|at| {
            let here = at.y > top - 4.0 && at.y < bottom + 4.0;
            !here || (left.is_none_or(|left| at.x > left) && right.is_none_or(|right| at.x < right))
        })
    }
}

/// Where an arrow touches a state, and the direction outwards from there.
type End = (Point, Point);

/// How many crossings there are between the arrows of two slots to one neighbouring layer, the first slot left of the
/// second.
fn crossed(near: &[Vec<usize>], ranks: &[usize], a: usize, b: usize) -> usize {
    near[a].iter().map(|x| near[b].iter().filter(|y| ranks[*x] > ranks[**y]).count()).sum()
}

/// A curve between two states of a layer: down to a point, and up again.
fn bow((from, to): (End, End), lowest: Point) -> Vec<Point> {
    let aside = (to.0.x - from.0.x) * 0.25;
    let half = |(at, out): End, aside: f64| {
        let reach = 0.6 * (lowest.y - at.y).abs();
        let near = Point { x: at.x + out.x * reach, y: at.y + out.y * reach };
        [at, near, Point { x: lowest.x + aside, y: lowest.y }]
    };
    let (first, last) = (half(from, -aside), half(to, aside));
    vec![first[0], first[1], first[2], lowest, last[2], last[1], last[0]]
}

/// A loop at the side of a state, with its text beside it.
fn looped(sheet: &Sheet, k: usize, at: Point, across: bool) -> Route {
    let (link, radius) = (&sheet.links[k], sheet.radii[sheet.links[k].from]);
    let (x, y) = (radius * 0.8, radius * 0.6);
    let far = (radius + LOOP - 0.25 * x) / 0.75;
    let point = |x: f64, y: f64| Point { x: at.x + x, y: at.y + y };
    let curve = vec![point(x, -y), point(far, -1.7 * y), point(far, 1.7 * y), point(x, y)];
    let width = link.label.map(|(width, height)| if across { height } else { width });
    Route { curve, label: width.map(|width| point(radius + LOOP + 4.0 + width / 2.0, 0.0)) }
}
