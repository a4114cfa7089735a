//! The planners in plain Rust, `reference/fast.rs` and `reference/shadows.rs` under document 01's rules with E1 to E6, called from here and as programs.
use std::io::Write;
use std::process::{Command, Stdio};

/// What the two call these rules.
pub const STAGE: &str = "E6";
const STAGE_NUMBER: u32 = 5;

#[allow(warnings)]
pub mod fast {
    include!("../reference/fast.rs");

    use super::STAGE_NUMBER;

    /// The tables of a plan: with them a source is planned as a whole.
    pub struct Ready(Planner);

    impl Ready {
        pub fn new(plan: &[u8]) -> Ready {
            Ready(Planner::new(Plan::parse(plan, STAGE_NUMBER).ok().unwrap(), true))
        }

        /// The length of the pair's first choice, where there is one.
        pub fn length(&self, source: u16, dest: u16) -> Option<u16> {
            match self.0.plan(&[source as usize]).pop().unwrap()[dest as usize] {
                Answer::Route { length, .. } => Some(length as u16),
                _ => None,
            }
        }
    }

    pub fn one_sheet(plan: &[u8], source: u16) -> Vec<u8> {
        let Ready(planner) = Ready::new(plan);
        let answers = planner.plan(&[source as usize]).pop().unwrap();
        sheet(source as usize, &answers, STAGE_NUMBER)
    }
}

#[allow(warnings)]
pub mod shadows {
    include!("../reference/shadows.rs");

    const RULES: Rules = Rules { stage: super::STAGE_NUMBER };

    fn shadows_of(plan: &[u8]) -> (Plan, Box<Geo>) {
        let p = parse(plan).ok().unwrap();
        let g = Geo::new(&p, RULES.stage >= 2);
        (p, g)
    }

    /// The kind and the vias of the pair's first choice, as in a sheet.
    pub fn pair(plan: &[u8], source: u16, dest: u16) -> (u8, [u16; 2]) {
        if source == dest {
            return (0, [0, 0]);
        }
        let (p, g) = shadows_of(plan);
        let (kind, via, second) = pair_lean(&g, RULES, source as usize, dest as usize, &mut Work::new(p.n));
        (kind, [via as u16, second as u16])
    }

    pub fn one_sheet(plan: &[u8], source: u16) -> Vec<u8> {
        let (p, g) = shadows_of(plan);
        let mut out = Vec::with_capacity(7 * p.n + 8);
        sheet_lean(&g, RULES, source as usize, &mut Work::new(p.n), &mut out);
        out
    }

    /// All sheets, sources rising, with tables of all pairs of nodes.
    pub fn all_sheets(plan: &[u8], mut each: impl FnMut(&[u8])) {
        let (p, g) = shadows_of(plan);
        let tables = Tables::new(&g);
        let mut work = Work::new(p.n);
        let mut out = Vec::with_capacity(7 * p.n + 8);
        for source in (0..p.n).filter(|&s| !p.dead[s]) {
            sheet_tables(&g, &tables, RULES, source, &mut work, &mut out);
            each(&out);
        }
    }

    /// The same without these tables, each sheet from nothing but the plan.
    pub fn sheets_one_by_one(plan: &[u8], mut each: impl FnMut(&[u8])) {
        let nodes = parse(plan).ok().unwrap();
        for source in (0..nodes.n).filter(|&s| !nodes.dead[s]) {
            each(&one_sheet(plan, source as u16));
        }
    }
}

/// What the program writes to standard output, with the plan at standard input.
pub fn output(program: &str, words: &[&str], plan: &[u8]) -> String {
    let mut child = Command::new(program)
        .args(words)
        .stdin(Stdio::piped())
        .stdout(Stdio::piped())
        .spawn()
        .unwrap_or_else(|error| panic!("{program}: {error}"));
    child.stdin.take().unwrap().write_all(plan).unwrap();
    let output = child.wait_with_output().unwrap();
    assert!(output.status.success(), "{program} {words:?} failed");
    String::from_utf8(output.stdout).unwrap()
}

/// FNV-1a-64 of bytes in a row.
#[derive(Clone, Copy, PartialEq, Debug)]
pub struct Hash(u64);

impl Hash {
    pub fn new() -> Hash {
        Hash(0xcbf29ce484222325)
    }

    pub fn add(&mut self, bytes: &[u8]) {
        for &b in bytes {
            self.0 = (self.0 ^ b as u64).wrapping_mul(0x100000001b3);
        }
    }
}

/// The hash of all sheets in a row that `fast` and `shadows` print.
pub fn hash_in(text: &str) -> Hash {
    let after = text.split("fnv1a64 ").nth(1).expect("a hash");
    Hash(u64::from_str_radix(&after[..16], 16).unwrap())
}
