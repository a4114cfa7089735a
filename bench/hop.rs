//! The time of a step, of a hop of walks of several lengths, and of a hop taken back: the proved stepper against the same stepper in plain Rust that divides, in plain Rust that does
//! not, and in plain Rust that counts the hops left as it does itself. In one run; it ends with a message where an answer differs.
mod plain;
mod random;
use plain::{Divides, Ending, Leg, Mode, Packet, Shape, Subtracts, MOST_LEGS};
use random::Random;
use std::hint::black_box;
use std::time::Instant;

extern "C" {
    #[allow(clippy::too_many_arguments)]
    fn nafthurm_step(x: u8, y: u8, z: u8, wrap: u8, node: u16, via: u16, further: u16, target: u16, modes: u8, dir: u8) -> u32;
    #[allow(clippy::too_many_arguments)]
    fn nafthurm_take_back(x: u8, y: u8, z: u8, wrap: u8, source: u16, node: u16, via: u16, further: u16, target: u16, modes: u8, mark: u8, dir: u8) -> u32;
    #[allow(clippy::too_many_arguments)]
    fn nafthurm_walk(x: u8, y: u8, z: u8, wrap: u8, node: u16, via: u16, further: u16, target: u16, modes: u8, dirs: *const u8, len: usize) -> u64;
}

struct Case {
    packet: Packet,
    dirs: Vec<u8>,
    /// The packet somewhere on the walk, and its last direction.
    later: Packet,
    last: u8,
}

/// A walk by allowed hops, at random, from a node over two vias to a target.
fn case(random: &mut Random, shape: &Shape, mode: Mode) -> Case {
    let node = |random: &mut Random| random.below(4096) as u16;
    let leg = |random: &mut Random| Leg { target: node(random), mode };
    let source = node(random);
    let packet = Packet { source, node: source, legs: [leg(random), leg(random), leg(random)], count: 3, mark: 0 };
    let mut dirs = vec![];
    let mut at = packet.node;
    for leg in packet.legs {
        while at != leg.target {
            let dir = random.below(6) as u8;
            let (after, number) = Packet { source: at, node: at, legs: [leg; MOST_LEGS], count: 1, mark: 0 }.step::<Divides>(shape, dir);
            if number == 0 {
                dirs.push(dir);
                at = after.node;
            }
        }
    }
    let taken = 1 + source as usize % dirs.len();
    let (later, ..) = packet.walk::<Divides>(shape, &dirs[..taken]);
    Case { packet, last: dirs[taken - 1], dirs, later }
}

/// A bit for each deterministic leg, leg one lowest.
fn modes(legs: [Leg; MOST_LEGS]) -> u8 {
    legs.iter().rev().fold(0, |bits, leg| 2 * bits + (leg.mode == Mode::Deterministic) as u8)
}

/// The node after a step, and 65,536 for each unit of the refusal's number.
fn proved_step(shape: &Shape, p: &Packet, dir: u8) -> u32 {
    let ([x, y, z], [first, second, third]) = (shape.extents, p.legs.map(|leg| leg.target));
    unsafe { nafthurm_step(x, y, z, shape.wrap, p.node, first, second, third, modes(p.legs), dir) }
}

/// The node before the last hop, 65,536 for each unit of the mark there, and 16,777,216 for each unit of the refusal's number.
fn proved_back(shape: &Shape, p: &Packet, dir: u8) -> u32 {
    let ([x, y, z], [first, second, third]) = (shape.extents, p.legs.map(|leg| leg.target));
    unsafe { nafthurm_take_back(x, y, z, shape.wrap, p.source, p.node, first, second, third, modes(p.legs), p.mark, dir) }
}

fn step_word((packet, number): (Packet, u8)) -> u32 {
    number as u32 * 65536 + packet.node as u32
}

fn back_word((packet, number): (Packet, u8)) -> u32 {
    number as u32 * 16777216 + packet.mark as u32 * 65536 + packet.node as u32
}

/// The hops of a walk, and 65,536 for each unit of the node's number that it ends at.
fn proved_walk(shape: &Shape, p: &Packet, dirs: &[u8]) -> u64 {
    let ([x, y, z], [first, second, third]) = (shape.extents, p.legs.map(|leg| leg.target));
    unsafe { nafthurm_walk(x, y, z, shape.wrap, p.node, first, second, third, modes(p.legs), dirs.as_ptr(), dirs.len()) }
}

fn walk_word((packet, hops, _): (Packet, usize, Ending)) -> u64 {
    packet.node as u64 * 65536 + hops as u64
}

/// The least time of several rounds over all cases, in nanoseconds for each of so many.
fn time<T>(cases: &[Case], many: usize, work: impl Fn(&Case) -> T) -> f64 {
    let round = || {
        let start = Instant::now();
        for case in cases {
            black_box(work(black_box(case)));
        }
        start.elapsed().as_secs_f64() * 1e9 / many as f64
    };
    (0..60).map(|_| round()).fold(f64::MAX, f64::min)
}

/// A line: the proved code's time, and each other's with the ratio to it.
fn line(name: &str, kind: &str, what: &str, ours: f64, others: &[f64]) {
    let others: String = others.iter().map(|other| format!(" {other:.2} ns | {:.2} |", ours / other)).collect();
    println!("| {name} | {kind} | {what} | {ours:.2} ns |{others}");
}

fn steps(name: &str, kind: &str, shape: &Shape, cases: &[Case]) {
    for case in cases {
        for dir in 0..8 {
            let words = [step_word(case.packet.step::<Divides>(shape, dir)), step_word(case.packet.step::<Subtracts>(shape, dir))];
            assert_eq!(words, [proved_step(shape, &case.packet, dir); 2], "a step is another than that of plain Rust");
        }
    }
    let dir = |case: &Case| case.dirs.first().copied().unwrap_or(0);
    let ours = time(cases, cases.len(), |c| proved_step(shape, &c.packet, dir(c)));
    let divides = time(cases, cases.len(), |c| step_word(c.packet.step::<Divides>(shape, dir(c))));
    let subtracts = time(cases, cases.len(), |c| step_word(c.packet.step::<Subtracts>(shape, dir(c))));
    line(name, kind, "a step", ours, &[divides, subtracts]);
}

fn backs(name: &str, kind: &str, shape: &Shape, cases: &[Case]) {
    for case in cases {
        assert_eq!(case.later.take_back::<Divides>(shape, case.last).1, 0, "a hop cannot be taken back");
        for dir in 0..8 {
            let words = [back_word(case.later.take_back::<Divides>(shape, dir)), back_word(case.later.take_back::<Subtracts>(shape, dir))];
            assert_eq!(words, [proved_back(shape, &case.later, dir); 2], "a hop is taken back otherwise than by plain Rust");
        }
    }
    let ours = time(cases, cases.len(), |c| proved_back(shape, &c.later, c.last));
    let divides = time(cases, cases.len(), |c| back_word(c.later.take_back::<Divides>(shape, c.last)));
    let subtracts = time(cases, cases.len(), |c| back_word(c.later.take_back::<Subtracts>(shape, c.last)));
    line(name, kind, "a hop taken back", ours, &[divides, subtracts]);
}

/// Walks of at most so many hops.
fn walks(name: &str, kind: &str, what: &str, shape: &Shape, cases: &[Case], most: usize) {
    fn dirs(case: &Case, most: usize) -> &[u8] {
        &case.dirs[..most.min(case.dirs.len())]
    }
    for case in cases {
        let (packet, dirs) = (case.packet, dirs(case, most));
        let words = [packet.walk::<Divides>(shape, dirs), packet.walk::<Subtracts>(shape, dirs), packet.walk_by_hops_left::<Subtracts>(shape, dirs)].map(walk_word);
        assert_eq!(words, [proved_walk(shape, &packet, dirs); 3], "a walk is another than that of plain Rust");
    }
    let hops = cases.iter().map(|c| dirs(c, most).len()).sum();
    let ours = time(cases, hops, |c| proved_walk(shape, &c.packet, dirs(c, most)));
    let divides = time(cases, hops, |c| walk_word(c.packet.walk::<Divides>(shape, dirs(c, most))));
    let subtracts = time(cases, hops, |c| walk_word(c.packet.walk::<Subtracts>(shape, dirs(c, most))));
    let counts = time(cases, hops, |c| walk_word(c.packet.walk_by_hops_left::<Subtracts>(shape, dirs(c, most))));
    line(name, kind, what, ours, &[divides, subtracts, counts]);
}

fn main() {
    println!("| machine | legs | | proved | plain Rust that divides | ratio | that does not | ratio | and counts the hops left | ratio |");
    println!("|---|---|---|---|---|---|---|---|---|---|");
    for (name, wrap) in [("torus", 7), ("mesh", 0)] {
        for (kind, mode) in [("adaptive", Mode::Adaptive), ("deterministic", Mode::Deterministic)] {
            let shape = Shape { extents: [16; 3], wrap };
            let mut random = Random(88172645463325252);
            let cases: Vec<Case> = (0..4000).map(|_| case(&mut random, &shape, mode)).collect();
            steps(name, kind, &shape, &cases);
            walks(name, kind, "a hop of whole walks", &shape, &cases, usize::MAX);
            walks(name, kind, "a hop of walks of 4", &shape, &cases, 4);
            walks(name, kind, "a walk of one hop", &shape, &cases, 1);
            backs(name, kind, &shape, &cases);
        }
    }
}
