//! Planning: the proved library and the program `sheets` against the two planners in plain Rust, on the same plans, in one run; and the converter against one in
//! plain Rust. It ends with a message where an answer differs. The words are the parts to measure, all of them where there is none: pair, sheet, sources, all,
//! calls, growth, convert. It is started by `bench/run`.
mod conversion;
mod plans;
mod random;
mod rivals;
mod time;

use plans::{Faults, Machine};
use random::Random;
use rivals::{fast, shadows, Hash};
use std::hint::black_box;

const FAST: &str = "target/bench/fast";
const SHADOWS: &str = "target/bench/shadows";
const SHEETS: &str = "crates/sheets/out/sheets";
const PLAN: &str = "target/bench/plan";
const ROUTES: &str = "target/bench/routes";

/// The numbers of an environment variable, or those given.
fn numbers(name: &str, given: &[u64]) -> Vec<u64> {
    match std::env::var(name) {
        Ok(text) => text.split_whitespace().map(|word| word.parse().expect(name)).collect(),
        Err(_) => given.to_vec(),
    }
}

fn extent() -> u64 {
    numbers("EXTENT", &[16])[0]
}

fn machines() -> [Machine; 2] {
    [true, false].map(|torus| Machine { extent: extent(), torus, weights: None })
}

fn dead_links() -> Vec<u64> {
    numbers("LINKS", &[0, 10, 40, 256])
}

/// Calls back with each machine and number of dead links, and a plan that has them.
fn each_plan(mut f: impl FnMut(Machine, u64, &[u8])) {
    for machine in machines() {
        for links in dead_links() {
            f(machine, links, &machine.plan(Faults { links, boards: 0 }));
        }
    }
}

/// The same, and with the last of these numbers a torus whose links in Z weigh 3.
fn each_plan_and_weighed(mut f: impl FnMut(Machine, u64, &[u8])) {
    each_plan(&mut f);
    let machine = Machine { extent: extent(), torus: true, weights: Some([1, 1, 3]) };
    let links = *dead_links().last().expect("LINKS");
    f(machine, links, &machine.plan(Faults { links, boards: 0 }));
}

/// The head of a Markdown table.
fn head(columns: &[&str]) {
    println!("\n| {} |\n|{}", columns.join(" | "), "---|".repeat(columns.len()));
}

fn row(machine: Machine, links: u64, columns: &[String]) {
    println!("| {} | {links} | {} |", machine.name(), columns.join(" | "));
}

/// Three digits, and more before the point where there are more.
fn digits(number: f64) -> String {
    let places = if number >= 100.0 { 0 } else if number >= 10.0 { 1 } else { 2 };
    format!("{number:.places$}")
}

fn time_of(seconds: f64) -> String {
    match seconds {
        s if s >= 1.0 => format!("{} s", digits(s)),
        s if s >= 1e-3 => format!("{} ms", digits(s * 1e3)),
        s => format!("{} µs", digits(s * 1e6)),
    }
}

/// Ours to theirs: as a fraction of one where theirs takes ten times as long or longer.
fn ratio(ours: f64, theirs: f64) -> String {
    if ours * 10.0 <= theirs {
        return format!("1 / {:.0}", theirs / ours);
    }
    digits(ours / theirs)
}

// ---- A pair

fn pairs_of(machine: Machine, random: &mut Random) -> Vec<(u16, u16)> {
    let mut node = || random.below(machine.nodes()) as u16;
    (0..200).map(|_| (node(), node())).collect()
}

fn check_pair(plan: &[u8], ready: &fast::Ready, source: u16, dest: u16) {
    let planned = nafthurm::pair(plan, source, dest);
    assert_eq!(planned.map(|p| p.length).ok(), ready.length(source, dest), "{source} to {dest}: the length is another than that of fast");
    let route = match planned {
        Ok(p) => as_in_a_sheet(p.route),
        Err(nafthurm::Refused(number)) => (16 * number, [0, 0]),
    };
    assert_eq!(route, shadows::pair(plan, source, dest), "{source} to {dest}: the route is another than that of shadows");
}

fn as_in_a_sheet(route: nafthurm::Route) -> (u8, [u16; 2]) {
    use nafthurm::Route::*;
    match route {
        Direct(mode) => (mode as u8, [0, 0]),
        Via(via, first, second) => (16 + first as u8 + 2 * second as u8, [via, 0]),
        Vias(via, further, first, second, third) => (32 + first as u8 + 2 * second as u8 + 4 * third as u8, [via, further]),
    }
}

fn pair_times() {
    let mut random = Random(88172645463325252);
    head(&["machine", "dead links", "a pair", "shadows.rs", "ratio"]);
    each_plan_and_weighed(|machine, links, plan| {
        let pairs = pairs_of(machine, &mut random);
        let ready = fast::Ready::new(plan);
        pairs.iter().for_each(|&(s, d)| check_pair(plan, &ready, s, d));
        let time = |f: &dyn Fn(u16, u16)| time::least(5, || pairs.iter().for_each(|&(s, d)| f(s, d))) / pairs.len() as f64;
        let ours = time(&|s, d| _ = black_box(nafthurm::pair(plan, s, d)));
        let shadows = time(&|s, d| _ = black_box(shadows::pair(plan, s, d)));
        row(machine, links, &[time_of(ours), time_of(shadows), ratio(ours, shadows)]);
    });
}

// ---- A sheet

fn write_sheet(plan: &[u8], source: u16, out: &mut [u8]) -> usize {
    nafthurm::write_sheet(plan, source, out).expect("a sheet")
}

fn sheet_times() {
    let mut out = vec![0; nafthurm::SHEET_BYTES];
    head(&["machine", "dead links", "the sheet of node 0", "fast.rs", "ratio", "shadows.rs", "ratio", "mean of 8 nodes", "shadows.rs", "ratio"]);
    each_plan_and_weighed(|machine, links, plan| {
        let sources: Vec<u16> = (0..8).map(|i| (i * (machine.nodes() - 1) / 7) as u16).collect();
        for &source in &sources {
            let size = write_sheet(plan, source, &mut out);
            assert!(out[..size] == shadows::one_sheet(plan, source), "the sheet of {source} is another than that of shadows");
        }
        let size = write_sheet(plan, 0, &mut out);
        assert!(out[..size] == fast::one_sheet(plan, 0), "the sheet of 0 is another than that of fast");
        let first = time::least(5, || _ = black_box(write_sheet(plan, 0, &mut out)));
        let fast_first = time::least(3, || _ = black_box(fast::one_sheet(plan, 0)));
        let shadows_first = time::least(5, || _ = black_box(shadows::one_sheet(plan, 0)));
        let count = sources.len() as f64;
        let mean = sources.iter().map(|&s| time::least(3, || _ = black_box(write_sheet(plan, s, &mut out)))).sum::<f64>() / count;
        let shadows_mean = sources.iter().map(|&s| time::least(3, || _ = black_box(shadows::one_sheet(plan, s)))).sum::<f64>() / count;
        row(machine, links, &[
            time_of(first), time_of(fast_first), ratio(first, fast_first), time_of(shadows_first), ratio(first, shadows_first),
            time_of(mean), time_of(shadows_mean), ratio(mean, shadows_mean),
        ]);
    });
}

// ---- The sheet of each source

/// The least seconds of each source's sheet. A round takes all sources one after the other, so that what disturbs the machine for a while spoils no source's every time.
fn each_source(plan: &[u8], nodes: u64) -> Vec<f64> {
    let mut out = vec![0; nafthurm::SHEET_BYTES];
    let mut least = vec![f64::INFINITY; nodes as usize];
    for _ in 0..5 {
        for (source, least) in least.iter_mut().enumerate() {
            *least = least.min(time::least(1, || _ = black_box(nafthurm::write_sheet(plan, source as u16, &mut out))));
        }
    }
    least
}

fn source_times() {
    head(&["machine", "dead links", "mean of all nodes", "the slowest", "its node", "shadows.rs for it", "ratio"]);
    each_plan(|machine, links, plan| {
        let times = each_source(plan, machine.nodes());
        let mean = times.iter().sum::<f64>() / times.len() as f64;
        let (node, &slowest) = times.iter().enumerate().max_by(|a, b| a.1.total_cmp(b.1)).unwrap();
        let shadows = time::least(5, || _ = black_box(shadows::one_sheet(plan, node as u16)));
        row(machine, links, &[time_of(mean), time_of(slowest), node.to_string(), time_of(shadows), ratio(slowest, shadows)]);
    });
}

// ---- All sheets

/// The hash of all sheets that a planner writes.
fn hash_of(sheets: impl FnOnce(&mut dyn FnMut(&[u8]))) -> Hash {
    let mut hash = Hash::new();
    sheets(&mut |sheet| hash.add(sheet));
    hash
}

fn is_same(ours: Hash, theirs: Hash, whose: &str) {
    assert_eq!(ours, theirs, "the sheets are others than those of {whose}");
}

fn all_times() {
    head(&["machine", "dead links", "the program `sheets`", "fast.rs", "ratio", "shadows.rs", "ratio"]);
    each_plan_and_weighed(|machine, links, plan| {
        std::fs::write(PLAN, plan).unwrap();
        let ours = time::user_of_children(|| _ = rivals::output(SHEETS, &[PLAN, ROUTES], &[]));
        let hash = hash_of(|each| each(&std::fs::read(ROUTES).unwrap()));
        let mut fast_hash = Hash::new();
        let fast = time::user_of_children(|| fast_hash = rivals::hash_in(&rivals::output(FAST, &["all", "--stage", rivals::STAGE], plan)));
        is_same(hash, fast_hash, "fast");
        let shadows = time::user_of_children(|| _ = rivals::output(SHADOWS, &["all", "--stage", rivals::STAGE], plan));
        is_same(hash, rivals::hash_in(&rivals::output(SHADOWS, &["all", "--stage", rivals::STAGE, "--hash"], plan)), "shadows");
        row(machine, links, &[time_of(ours), time_of(fast), ratio(ours, fast), time_of(shadows), ratio(ours, shadows)]);
    });
    _ = std::fs::remove_file(ROUTES);
}

/// All sheets by one call each.
fn one_by_one(plan: &[u8], nodes: u64, mut each: impl FnMut(&[u8])) {
    let mut out = vec![0; nafthurm::SHEET_BYTES];
    for source in 0..nodes as u16 {
        if let Ok(size) = nafthurm::write_sheet(plan, source, &mut out) {
            each(&out[..size]);
        }
    }
}

/// The user seconds of all sheets by one call, and of shadows, whose sheets have to be the same.
fn all_by_call(machine: Machine, plan: &[u8]) -> (f64, f64) {
    let mut work = vec![0; nafthurm::ALL_WORDS_A_BOARD * machine.nodes() as usize];
    let mut out = vec![0xEE; nafthurm::SHEET_BYTES * machine.nodes() as usize];
    let run = nafthurm::all_sheets(plan, 0, &mut work, &mut out).expect("all sheets");
    assert_eq!(run.next as u64, machine.nodes());
    is_same(hash_of(|each| each(&out[..run.size])), hash_of(|each| shadows::all_sheets(plan, each)), "shadows");
    (
        time::user(|| _ = black_box(nafthurm::all_sheets(plan, 0, &mut work, &mut out))),
        time::user(|| shadows::all_sheets(plan, |sheet| _ = black_box(sheet))),
    )
}

fn call_times() {
    head(&["machine", "dead links", "one call for all sheets", "shadows.rs", "ratio", "a call a sheet", "shadows.rs, lean", "ratio"]);
    each_plan(|machine, links, plan| {
        let (all, shadows_all) = all_by_call(machine, plan);
        let hash = hash_of(|each| one_by_one(plan, machine.nodes(), each));
        is_same(hash, hash_of(|each| shadows::sheets_one_by_one(plan, each)), "shadows");
        let one = time::user(|| one_by_one(plan, machine.nodes(), |sheet| _ = black_box(sheet)));
        let shadows_one = time::user(|| shadows::sheets_one_by_one(plan, |sheet| _ = black_box(sheet)));
        row(machine, links, &[time_of(all), time_of(shadows_all), ratio(all, shadows_all), time_of(one), time_of(shadows_one), ratio(one, shadows_one)]);
    });
}

// ---- Growth

fn growth_row(machine: Machine, faults: &[Faults]) {
    let cell = |&faults: &Faults| {
        if !machine.holds(faults) {
            return "-".to_string();
        }
        let (ours, shadows) = all_by_call(machine, &machine.plan(faults));
        format!("{} ({})", time_of(ours), ratio(ours, shadows))
    };
    let cells: Vec<String> = faults.iter().map(cell).collect();
    println!("| {} | {} |", machine.name(), cells.join(" | "));
}

fn growth() {
    let links = numbers("LINKS", &[0, 10, 40, 128, 256]);
    let boards = numbers("BOARDS", &[10, 64]);
    let columns: Vec<String> = links.iter().map(|n| format!("{n} links")).chain(boards.iter().map(|n| format!("{n} boards"))).collect();
    head(&["machine"].into_iter().chain(columns.iter().map(String::as_str)).collect::<Vec<_>>());
    let faults: Vec<Faults> = links.iter().map(|&links| Faults { links, boards: 0 }).chain(boards.iter().map(|&boards| Faults { links: 0, boards })).collect();
    for extent in [4, 8, 12, 16].into_iter().filter(|&e| e <= extent()) {
        growth_row(Machine { extent, torus: true, weights: None }, &faults);
    }
    growth_row(Machine { extent: extent(), torus: false, weights: None }, &faults);
}

// ---- A conversion

fn convert_times() {
    let mut out = vec![0; nafthurm::SHEET_BYTES];
    let mut plain_out = vec![0; nafthurm::SHEET_BYTES];
    head(&["machine", "entries", "kind", "a conversion", "plain Rust", "ratio", "writing the new sheet back", "ratio"]);
    for machine in machines() {
        let plan = machine.plan(Faults { links: 10, boards: 0 });
        for kind in [1, 2, 5] {
            let old = conversion::old_sheet(machine, kind);
            let size = nafthurm::convert(&plan, &old, &mut out).expect("a sheet that can be kept");
            assert_eq!(conversion::convert(&plan, &old, &mut plain_out), Ok(size));
            assert!(out[..size] == plain_out[..size], "the sheet is another than that of plain Rust");
            let new = out[..size].to_vec();
            let ours = time::least(20, || _ = black_box(nafthurm::convert(&plan, &old, &mut out)));
            let plain = time::least(20, || _ = black_box(conversion::convert(&plan, &old, &mut plain_out)));
            let back = time::least(20, || _ = black_box(nafthurm::sheet_write_back(&plan, &new, &mut out)));
            let columns = [time_of(ours), time_of(plain), ratio(ours, plain), time_of(back), ratio(ours, back)];
            println!("| {} | {} | {kind} | {} |", machine.name(), machine.nodes() - 1, columns.join(" | "));
        }
    }
}

fn main() {
    let asked: Vec<String> = std::env::args().skip(1).collect();
    let parts: [(&str, fn()); 7] = [
        ("pair", pair_times), ("sheet", sheet_times), ("sources", source_times), ("all", all_times), ("calls", call_times), ("growth", growth),
        ("convert", convert_times),
    ];
    for (name, part) in parts {
        if asked.is_empty() || asked.iter().any(|word| word == name) {
            part();
        }
    }
}
