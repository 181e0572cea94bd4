//! Where all parts of the drawing are; curves, and the size of text.

/// A place in the drawing: x to the right and y downwards.
#[derive(Clone, Copy, Debug, PartialEq)]
pub struct Point {
    pub x: f64,
    pub y: f64,
}

/// What is laid out: the states with their radii, which of them is the start, and the arrows.
pub struct Sheet {
    pub radii: Vec<f64>,
    pub start: Option<usize>,
    pub links: Vec<Link>,
}

/// An arrow between two states, by their places in the list; the width and height of its text if it has any.
pub struct Link {
    pub from: usize,
    pub to: usize,
    pub label: Option<(f64, f64)>,
}

/// An arrow's way: a point, and three for each further piece of a cubic curve. Where the middle of its text is.
#[derive(Clone, Debug)]
pub struct Route {
    pub curve: Vec<Point>,
    pub label: Option<Point>,
}

/// Where the states' centres are, the arrows' ways, and the way of the arrow into the start.
#[derive(Clone, Debug)]
pub struct Plan {
    pub nodes: Vec<Point>,
    pub routes: Vec<Route>,
    pub entry: Option<Vec<Point>>,
}

/// Room around the drawing.
const MARGIN: f64 = 10.0;

/// The size of the text at arrows, and the height of a line of it.
pub const TEXT: f64 = 12.0;
pub const LINE: f64 = 15.0;

impl Plan {
    /// The corners of the drawing, with a margin.
    pub fn corners(&self, sheet: &Sheet) -> (Point, Point) {
        let mut boxes: Vec<(Point, f64, f64)> = vec![];
        boxes.extend(self.nodes.iter().zip(&sheet.radii).map(|(at, radius)| (*at, *radius, *radius)));
        let curves = self.routes.iter().map(|route| &route.curve).chain(&self.entry);
        boxes.extend(curves.flatten().map(|at| (*at, 0.0, 0.0)));
        for (route, link) in self.routes.iter().zip(&sheet.links) {
            if let (Some(at), Some((width, height))) = (route.label, link.label) {
                boxes.push((at, width / 2.0, height / 2.0));
            }
        }
        let (mut low, mut high) = (boxes[0].0, boxes[0].0);
        for (at, width, height) in boxes {
            low = Point { x: low.x.min(at.x - width), y: low.y.min(at.y - height) };
            high = Point { x: high.x.max(at.x + width), y: high.y.max(at.y + height) };
        }
        (Point { x: low.x - MARGIN, y: low.y - MARGIN }, Point { x: high.x + MARGIN, y: high.y + MARGIN })
    }

    /// The scale at which the drawing fits a page, 1 at most.
    pub fn scale(&self, sheet: &Sheet, (width, height): (f64, f64)) -> f64 {
        let (low, high) = self.corners(sheet);
        (width / (high.x - low.x)).min(height / (high.y - low.y)).min(1.0)
    }

    /// The plan with x and y exchanged.
    pub fn turned(mut self) -> Plan {
        let curves = self.routes.iter_mut().flat_map(|route| route.curve.iter_mut().chain(&mut route.label));
        for at in self.nodes.iter_mut().chain(curves).chain(self.entry.iter_mut().flatten()) {
            *at = Point { x: at.y, y: at.x };
        }
        self
    }
}

impl Point {
    /// The point so far along the way to another.
    pub fn towards(self, other: Point, part: f64) -> Point {
        Point { x: self.x + (other.x - self.x) * part, y: self.y + (other.y - self.y) * part }
    }

    /// The distance to another point.
    pub fn distance(self, other: Point) -> f64 {
        (self.x - other.x).hypot(self.y - other.y)
    }
}

/// The first part of a cubic piece, up to a share of it.
pub fn first_part([a, b, c, d]: [Point; 4], part: f64) -> [Point; 4] {
    let (ab, bc, cd) = (a.towards(b, part), b.towards(c, part), c.towards(d, part));
    let (abc, bcd) = (ab.towards(bc, part), bc.towards(cd, part));
    [a, ab, abc, abc.towards(bcd, part)]
}

/// A curve without the last bit that its head covers, and the head's three corners, the tip first.
pub fn headed(curve: &[Point], length: f64, width: f64) -> (Vec<Point>, [Point; 3]) {
    let (rest, last) = curve.split_at(curve.len() - 3);
    let piece = [rest[rest.len() - 1], last[0], last[1], last[2]];
    let (mut low, mut high) = (0.0, 1.0);
    for _ in 0..30 {
        let middle = (low + high) / 2.0;
        if first_part(piece, middle)[3].distance(piece[3]) > length {
            low = middle;
        } else {
            high = middle;
        }
    }
    let (cut, tip) = (first_part(piece, low), piece[3]);
    let foot = cut[3];
    let long = foot.distance(tip).max(0.01);
    let side = Point { x: (tip.y - foot.y) / long * width / 2.0, y: (foot.x - tip.x) / long * width / 2.0 };
    let corners = [(foot.x + side.x, foot.y + side.y), (foot.x - side.x, foot.y - side.y)].map(|(x, y)| Point { x, y });
    ([rest, &cut[1..]].concat(), [tip, corners[0], corners[1]])
}

/// The width and height of lines of text at an arrow.
pub fn text_size(lines: &[String]) -> (f64, f64) {
    let width = lines.iter().map(|line| line.chars().map(share).sum::<f64>()).fold(0.0, f64::max);
    (width * TEXT + 4.0, lines.len() as f64 * LINE)
}

/// The width of a character as a share of the size of the text, a little more than common fonts have.
fn share(c: char) -> f64 {
    match c {
        'i' | 'j' | 'l' | '\'' => 0.27,
        ' ' | '.' | ',' | ':' | ';' | '!' | '|' | '/' | 'f' | 't' | 'I' => 0.33,
        '(' | ')' | '-' | 'r' => 0.38,
        'm' | 'w' | 'M' | 'W' | '@' | '%' => 0.92,
        '&' | 'A'..='Z' => 0.74,
        c if (c as u32) < 0x2e80 => 0.6,
        _ => 1.0,
    }
}
