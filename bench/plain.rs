//! The stepper in plain Rust, as a programmer would write it for speed. Coordinates come by division or by subtraction; a walk carries coordinates, or the hops
//! left of its leg, as the proved stepper does.

#[derive(Clone, Copy, PartialEq)]
pub enum Mode {
    Adaptive,
    Deterministic,
}

#[derive(Clone, Copy)]
pub struct Leg {
    pub target: u16,
    pub mode: Mode,
}

pub const MOST_LEGS: usize = 3;

#[derive(Clone, Copy)]
pub struct Packet {
    pub source: u16,
    pub node: u16,
    pub legs: [Leg; MOST_LEGS],
    pub count: u8,
    pub mark: u8,
}

#[derive(Clone, Copy)]
pub struct Shape {
    pub extents: [u8; 3],
    pub wrap: u8,
}

#[derive(PartialEq, Debug)]
pub enum Ending {
    Arrived,
    NotAllowed,
    UsedUp,
    Refused(u8),
}

/// How a node number is taken apart.
pub trait Division {
    fn divide(n: u16, d: u16) -> (u16, u16);
}

pub struct Divides;

impl Division for Divides {
    fn divide(n: u16, d: u16) -> (u16, u16) {
        (n / d, n % d)
    }
}

/// Of a quotient below 16.
pub struct Subtracts;

impl Division for Subtracts {
    fn divide(n: u16, d: u16) -> (u16, u16) {
        let (mut times, mut rest) = (0, n);
        for k in [8, 4, 2, 1] {
            if k * d <= rest {
                rest -= k * d;
                times += k;
            }
        }
        (times, rest)
    }
}

/// At half a ring, where both ways are useful, a deterministic leg goes plus from an even coordinate.
fn goes_plus(p: u8) -> bool {
    p % 2 == 0
}

impl Shape {
    fn error(&self) -> u8 {
        if self.extents.iter().any(|&e| !(1..=16).contains(&e)) {
            return 5;
        }
        let bad = (0..3).any(|d| self.wrapped(d) && self.extents[d] < 3);
        if bad || self.wrap > 7 {
            return 6;
        }
        0
    }

    fn wrapped(&self, d: usize) -> bool {
        self.wrap >> d & 1 == 1
    }

    fn nodes(&self) -> u16 {
        self.extents.iter().map(|&e| e as u16).product()
    }

    pub fn coords<D: Division>(&self, node: u16) -> [u8; 3] {
        let [a, b, _] = self.extents.map(|e| e as u16);
        let (z, rest) = D::divide(node, a * b);
        let (y, x) = D::divide(rest, a);
        [x as u8, y as u8, z as u8]
    }

    fn number(&self, c: [u8; 3]) -> u16 {
        let [a, b, _] = self.extents.map(|e| e as u16);
        c[0] as u16 + a * (c[1] as u16 + b * c[2] as u16)
    }

    /// Whether plus and whether minus are useful from p toward q in dimension d.
    fn ways(&self, d: usize, p: u8, q: u8) -> (bool, bool) {
        if !self.wrapped(d) {
            return (p < q, q < p);
        }
        let len = self.extents[d];
        let up = if p <= q { q - p } else { len - (p - q) };
        (up != 0 && 2 * up <= len, up != 0 && 2 * up >= len)
    }

    pub fn allows(&self, mode: Mode, at: [u8; 3], to: [u8; 3], dir: u8) -> bool {
        if dir > 5 {
            return false;
        }
        let (d, plus) = ((dir / 2) as usize, dir % 2 == 0);
        let (up, down) = self.ways(d, at[d], to[d]);
        match mode {
            Mode::Adaptive => if plus { up } else { down },
            Mode::Deterministic => match (0..3).find(|&i| at[i] != to[i]) {
                Some(first) => first == d && plus == if up && down { goes_plus(at[d]) } else { up },
                None => false,
            },
        }
    }

    fn moved(&self, mut at: [u8; 3], dir: u8) -> [u8; 3] {
        let (d, plus) = ((dir / 2) as usize, dir % 2 == 0);
        let len = self.extents[d];
        at[d] = match (plus, at[d]) {
            (true, p) if p + 1 == len => 0,
            (true, p) => p + 1,
            (false, 0) => len - 1,
            (false, p) => p - 1,
        };
        at
    }

    /// Whether some walk of a leg from `start` comes to the place and goes on in direction dir.
    fn crosses(&self, mode: Mode, start: [u8; 3], at: [u8; 3], to: [u8; 3], dir: u8) -> bool {
        let dim = (dir / 2) as usize;
        let between = |d: usize| self.hops(d, start[d], at[d]) + self.hops(d, at[d], to[d]) == self.hops(d, start[d], to[d]);
        let on_a_walk = || match mode {
            Mode::Adaptive => (0..3).all(between),
            Mode::Deterministic => {
                let (up, down) = self.ways(dim, start[dim], to[dim]);
                let plus = if up && down { goes_plus(start[dim]) } else { up };
                plus == (dir % 2 == 0) && between(dim) && (dim + 1..3).all(|d| at[d] == start[d])
            }
        };
        self.allows(mode, at, to, dir) && on_a_walk()
    }

    fn hops(&self, d: usize, p: u8, q: u8) -> u8 {
        let apart = p.abs_diff(q);
        if self.wrapped(d) { apart.min(self.extents[d] - apart) } else { apart }
    }

    /// The hops left from p to q in dimension d going plus, and going minus, 0 where the leg may not: an open dimension is like a ring of twice its extent.
    fn hops_left(&self, mode: Mode, d: usize, p: u8, q: u8) -> [u8; 2] {
        let ring = if self.wrapped(d) { self.extents[d] } else { 2 * self.extents[d] };
        let up = if p <= q { q - p } else { ring - (p - q) };
        let half = mode == Mode::Deterministic && 2 * up == ring;
        let plus = 2 * up <= ring && !(half && !goes_plus(p));
        let minus = ring <= 2 * up && !(half && goes_plus(p));
        [if plus { up } else { 0 }, if minus { ring - up } else { 0 }]
    }

    /// The place from which these hops lead to q in dimension d.
    fn before(&self, d: usize, q: u8, [plus, minus]: [u8; 2]) -> u8 {
        let len = self.extents[d];
        let place = q + if plus == 0 { minus } else { len - plus };
        if len <= place { place - len } else { place }
    }
}

/// A packet on a leg: the hops left to its target, and in each direction.
#[derive(Clone, Copy)]
struct Course {
    mark: u8,
    mode: Mode,
    hops: u8,
    to: [u8; 3],
    ways: [u8; 6],
}

impl Course {
    fn of<D: Division>(packet: Packet, shape: &Shape) -> Course {
        let packet = packet.drops();
        let front = if packet.arrived() { Leg { target: 0, mode: Mode::Adaptive } } else { packet.front() };
        let (at, to) = (shape.coords::<D>(packet.node), shape.coords::<D>(front.target));
        let [x, y, z] = [0, 1, 2].map(|d| shape.hops_left(front.mode, d, at[d], to[d]));
        let hops = [x, y, z].map(|[plus, minus]| plus.max(minus)).iter().sum();
        Course { mark: packet.mark, mode: front.mode, hops, to, ways: [x[0], x[1], y[0], y[1], z[0], z[1]] }
    }

    fn take(&mut self, dir: u8) -> bool {
        let (d, w) = (dir as usize, &mut self.ways);
        if dir > 5 || w[d] == 0 {
            return false;
        }
        if self.mode == Mode::Deterministic && (dir > 1 && (w[0] | w[1]) != 0 || dir > 3 && (w[2] | w[3]) != 0) {
            return false;
        }
        w[d] -= 1;
        w[d ^ 1] = 0;
        self.hops -= 1;
        true
    }

    fn packet(&self, shape: &Shape, lent: Packet) -> Packet {
        let at = [0, 1, 2].map(|d| shape.before(d, self.to[d], [self.ways[2 * d], self.ways[2 * d + 1]]));
        Packet { node: shape.number(at), mark: self.mark, ..lent }
    }
}

impl Packet {
    fn front(&self) -> Leg {
        self.legs[self.mark as usize]
    }

    fn arrived(&self) -> bool {
        self.mark == self.count
    }

    fn drops(mut self) -> Packet {
        while !self.arrived() && self.front().target == self.node {
            self.mark += 1;
        }
        self
    }

    fn error(&self, shape: &Shape) -> u8 {
        let error = shape.error();
        if error != 0 {
            return error;
        }
        if self.count as usize > MOST_LEGS || self.mark > self.count {
            return 14;
        }
        let nodes = shape.nodes();
        if self.source >= nodes || self.node >= nodes || self.legs[..self.count as usize].iter().any(|l| l.target >= nodes) {
            return 14;
        }
        0
    }

    pub fn step<D: Division>(self, shape: &Shape, dir: u8) -> (Packet, u8) {
        let error = self.error(shape);
        if error != 0 {
            return (self, error);
        }
        let packet = self.drops();
        if packet.arrived() {
            return (self, 15);
        }
        let (at, to) = (shape.coords::<D>(packet.node), shape.coords::<D>(packet.front().target));
        if !shape.allows(packet.front().mode, at, to, dir) {
            return (self, 15);
        }
        let node = shape.number(shape.moved(at, dir));
        (Packet { node, ..packet }.drops(), 0)
    }

    /// Where leg number i begins.
    fn begin(&self, i: usize) -> u16 {
        if i == 0 { self.source } else { self.legs[i - 1].target }
    }

    /// The packet before its last hop. That was made on the current leg, or, where this begins here, on the nearest before it that does not.
    pub fn take_back<D: Division>(self, shape: &Shape, dir: u8) -> (Packet, u8) {
        let error = self.error(shape);
        if error != 0 {
            return (self, error);
        }
        let last = (0..=self.mark as usize).rev().find(|&i| self.begin(i) != self.node);
        let Some(mark) = last.filter(|&i| dir < 6 && i < self.count as usize && self.drops().mark == self.mark) else {
            return (self, 18);
        };
        let leg = self.legs[mark];
        let [at, start, to] = [self.node, self.begin(mark), leg.target].map(|node| shape.coords::<D>(node));
        let before = shape.moved(at, dir ^ 1);
        if !shape.crosses(leg.mode, start, before, to, dir) {
            return (self, 18);
        }
        (Packet { node: shape.number(before), mark: mark as u8, ..self }, 0)
    }

    /// A walk that carries coordinates.
    pub fn walk<D: Division>(self, shape: &Shape, dirs: &[u8]) -> (Packet, usize, Ending) {
        let error = self.error(shape);
        if error != 0 {
            return (self, 0, Ending::Refused(error));
        }
        let mut packet = self.drops();
        let kept = |hops, packet| if hops == 0 { self } else { packet };
        let mut at = shape.coords::<D>(self.node);
        let mut to = if packet.arrived() { at } else { shape.coords::<D>(packet.front().target) };
        for (hops, &dir) in dirs.iter().enumerate() {
            if packet.arrived() {
                return (kept(hops, packet), hops, Ending::Arrived);
            }
            if !shape.allows(packet.front().mode, at, to, dir) {
                return (kept(hops, packet), hops, Ending::NotAllowed);
            }
            at = shape.moved(at, dir);
            packet.node = shape.number(at);
            let before = packet.mark;
            packet = packet.drops();
            if packet.mark != before && !packet.arrived() {
                to = shape.coords::<D>(packet.front().target);
            }
        }
        let ending = if packet.arrived() { Ending::Arrived } else { Ending::UsedUp };
        (kept(dirs.len(), packet), dirs.len(), ending)
    }

    /// A walk that carries the hops left of its leg.
    pub fn walk_by_hops_left<D: Division>(self, shape: &Shape, dirs: &[u8]) -> (Packet, usize, Ending) {
        let error = self.error(shape);
        if error != 0 {
            return (self, 0, Ending::Refused(error));
        }
        let mut way = Course::of::<D>(self, shape);
        let kept = |hops, way: Course| if hops == 0 { self } else { way.packet(shape, self) };
        for (hops, &dir) in dirs.iter().enumerate() {
            if way.mark == self.count {
                return (kept(hops, way), hops, Ending::Arrived);
            }
            if !way.take(dir) {
                return (kept(hops, way), hops, Ending::NotAllowed);
            }
            if way.hops == 0 {
                way = Course::of::<D>(Packet { node: shape.number(way.to), mark: way.mark, ..self }, shape);
            }
        }
        let ending = if way.mark == self.count { Ending::Arrived } else { Ending::UsedUp };
        (kept(dirs.len(), way), dirs.len(), ending)
    }
}
