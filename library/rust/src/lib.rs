//! Nafthurm for a board's program in Rust: plan and route sheets, planned routes, packets, steps, walks, and hops taken back. Every call takes any bytes and any
//! numbers; what each checks, and in which order, stands in library/nafthurm.h, and the numbers of refusals in docs/NUMBERS.md.
mod raw;

/// The largest plan sheet, of 256 faults.
pub const PLAN_BYTES: usize = 780;
/// The largest route sheet, of 4,095 entries: an output of this size is never refused with 12.
pub const SHEET_BYTES: usize = 28672;
/// The largest listing, likewise.
pub const LISTING_BYTES: usize = 94222;

/// Words of workspace that `all_sheets` asks for a board of the plan, and for the largest plan, of 4,096 boards.
pub const ALL_WORDS_A_BOARD: usize = 512;
pub const ALL_WORDS: usize = 2097152;

/// The number of a refusal, 1 to 18.
#[derive(Clone, Copy, Debug, PartialEq, Eq)]
pub struct Refused(pub u8);

/// Extents of the dimensions, each 1 to 16; `wrap` has bits 0, 1, 2 for X, Y, Z.
#[repr(C)]
#[derive(Clone, Copy, Debug, PartialEq, Eq)]
pub struct Shape {
    pub x: u8,
    pub y: u8,
    pub z: u8,
    pub wrap: u8,
}

/// Weights of the dimensions, each 1 to 8: what a hop there adds to a distance or a length.
#[repr(C)]
#[derive(Clone, Copy, Debug, PartialEq, Eq)]
pub struct Weights {
    pub x: u8,
    pub y: u8,
    pub z: u8,
}

/// An adaptive leg may take any hop that brings it nearer to its target. A deterministic leg takes the first of X, Y, Z where the coordinates differ, the
/// shorter way; at exactly half a ring it goes plus from an even coordinate of that dimension and minus from an odd one.
#[derive(Clone, Copy, Debug, PartialEq, Eq)]
pub enum Mode {
    Adaptive,
    Deterministic,
}

#[derive(Clone, Copy, Debug, PartialEq, Eq)]
pub enum Route {
    Direct(Mode),
    Via(u16, Mode, Mode),
    Vias(u16, u16, Mode, Mode, Mode),
}

/// A planned route and its length, the sum of the weights of its hops.
#[derive(Clone, Copy, Debug, PartialEq, Eq)]
pub struct Planned {
    pub route: Route,
    pub length: u16,
}

/// A run of sheets: the bytes written, and the board to go on with, which is the plan's board count when no sheet is left.
#[derive(Clone, Copy, Debug, PartialEq, Eq)]
pub struct Run {
    pub size: usize,
    pub next: u16,
}

/// Why there is no run.
#[derive(Clone, Copy, Debug, PartialEq, Eq)]
pub enum NoRun {
    Refused(Refused),
    FewWords,
}

/// Why a sheet is not converted: a number, or 17 with the first entry that cannot be kept, counted from 0.
#[derive(Clone, Copy, Debug, PartialEq, Eq)]
pub enum NotConverted {
    Refused(Refused),
    NotKept(u16),
}

#[derive(Clone, Copy, Debug, PartialEq, Eq)]
pub struct Leg {
    pub target: u16,
    pub mode: Mode,
}

/// A packet: the source of its route, its present node, and the route, which is the first `count` of the legs. `mark` is the number of the current leg, from 0 on;
/// where it is `count`, just past the last leg, the packet has arrived. Legs behind the route are not judged, and kept.
#[derive(Clone, Copy, Debug, PartialEq, Eq)]
pub struct Packet {
    pub source: u16,
    pub node: u16,
    pub legs: [Leg; 3],
    pub count: u8,
    pub mark: u8,
}

#[derive(Clone, Copy, Debug, PartialEq, Eq)]
pub enum Ending {
    Arrived,
    NotAllowed,
    UsedUp,
    Refused(Refused),
}

/// The packet after the hops taken, how many they are, and how the walk ended.
#[derive(Clone, Copy, Debug, PartialEq, Eq)]
pub struct Walked {
    pub packet: Packet,
    pub hops: usize,
    pub ending: Ending,
}

fn accepted(number: u8) -> Result<(), Refused> {
    if number == 0 {
        Ok(())
    } else {
        Err(Refused(number))
    }
}

// ---- Plan sheets

/// The checks of a plan: 1 to 6, 16, and then 7 and 8 fault by fault.
pub fn plan_check(plan: &[u8]) -> Result<(), Refused> {
    accepted(unsafe { raw::nafthurm_plan_check(plan.as_ptr(), plan.len()) })
}

/// Extents and wrap; zeros where a check declines the sheet.
pub fn plan_shape(plan: &[u8]) -> Shape {
    unsafe { raw::nafthurm_plan_shape(plan.as_ptr(), plan.len()) }
}

/// Weights, of a version 1 sheet 1, 1, 1; zeros where a check declines the sheet.
pub fn plan_weights(plan: &[u8]) -> Weights {
    unsafe { raw::nafthurm_plan_weights(plan.as_ptr(), plan.len()) }
}

/// No where a check declines the sheet or there is no such node.
pub fn dead_node(plan: &[u8], node: u16) -> bool {
    unsafe { raw::nafthurm_dead_node(plan.as_ptr(), plan.len(), node) }
}

/// No where a check declines the sheet or no link leaves the node in the direction.
pub fn dead_link(plan: &[u8], node: u16, direction: u8) -> bool {
    unsafe { raw::nafthurm_dead_link(plan.as_ptr(), plan.len(), node, direction) }
}

/// The sheet as it is, into `out`: how many bytes are written.
pub fn plan_write_back(plan: &[u8], out: &mut [u8]) -> Result<usize, Refused> {
    let written = unsafe { raw::nafthurm_plan_write_back(plan.as_ptr(), plan.len(), out.as_mut_ptr(), out.len()) };
    accepted(written.number).map(|()| written.size)
}

// ---- Planning

pub fn pair(plan: &[u8], source: u16, destination: u16) -> Result<Planned, Refused> {
    let planned = unsafe { raw::nafthurm_pair(plan.as_ptr(), plan.len(), source, destination) };
    Ok(Planned { route: planned.route.read()?, length: planned.length })
}

/// The route sheet of every destination, in version 3, into `out`: how many bytes are written.
pub fn write_sheet(plan: &[u8], source: u16, out: &mut [u8]) -> Result<usize, Refused> {
    let written = unsafe { raw::nafthurm_write_sheet(plan.as_ptr(), plan.len(), source, out.as_mut_ptr(), out.len()) };
    accepted(written.number).map(|()| written.size)
}

/// The route sheets of the sound boards from `from` on, one behind the other, into `out`: as many whole ones as it takes. `work` is a workspace of
/// `ALL_WORDS_A_BOARD` words a board, whatever it holds. Each call plans the whole machine anew, so an output for many sheets is quicker than one for few.
///
///     # let plan = [1, 0, 9, 4, 4, 1, 3, 0, 1, 0, 0, 0];
///     # let mut file = vec![];
///     let shape = nafthurm::plan_shape(&plan);
///     let boards = shape.x as u16 * shape.y as u16 * shape.z as u16;
///     let mut work = vec![0; nafthurm::ALL_WORDS_A_BOARD * boards as usize];
///     let mut out = vec![0; 64 * nafthurm::SHEET_BYTES];
///     let mut from = 0;
///     loop {
///         let run = nafthurm::all_sheets(&plan, from, &mut work, &mut out)?;
///         file.extend_from_slice(&out[..run.size]);
///         from = run.next;
///         if from == boards {
///             break;
///         }
///     }
///     # Ok::<(), nafthurm::NoRun>(())
pub fn all_sheets(plan: &[u8], from: u16, work: &mut [u16], out: &mut [u8]) -> Result<Run, NoRun> {
    let run = unsafe { raw::nafthurm_all_sheets(plan.as_ptr(), plan.len(), from, work.as_mut_ptr(), work.len(), out.as_mut_ptr(), out.len()) };
    match run.number {
        0 => Ok(Run { size: run.size, next: run.next }),
        raw::FEW_WORDS => Err(NoRun::FewWords),
        number => Err(NoRun::Refused(Refused(number))),
    }
}

/// The listing of a two-byte source and a plan sheet, as text into `out`: how many bytes are written. An input that is declined gives the line
/// `refused` and the number, so that the only refusal is 12.
pub fn listing(input: &[u8], out: &mut [u8]) -> Result<usize, Refused> {
    let written = unsafe { raw::nafthurm_listing(input.as_ptr(), input.len(), out.as_mut_ptr(), out.len()) };
    accepted(written.number).map(|()| written.size)
}

// ---- Route sheets

/// The checks of the plan, then 13 of the sheet. Versions 3 and 2 are read; `convert` reads version 1.
pub fn sheet_check(plan: &[u8], sheet: &[u8]) -> Result<(), Refused> {
    accepted(unsafe { raw::nafthurm_sheet_check(plan.as_ptr(), plan.len(), sheet.as_ptr(), sheet.len()) })
}

/// The sheet in version 3, into `out`: how many bytes are written. A version 3 sheet comes back as the same bytes, one of version 2 with the same routes.
pub fn sheet_write_back(plan: &[u8], sheet: &[u8], out: &mut [u8]) -> Result<usize, Refused> {
    let written = unsafe { raw::nafthurm_sheet_write_back(plan.as_ptr(), plan.len(), sheet.as_ptr(), sheet.len(), out.as_mut_ptr(), out.len()) };
    accepted(written.number).map(|()| written.size)
}

/// The very bytes of the destination's entry, seven of version 3, five of version 2; empty, at the sheet's start, if it is not listed or the lookup is declined.
pub fn lookup<'a>(plan: &[u8], sheet: &'a [u8], destination: u16) -> &'a [u8] {
    let part = unsafe { raw::nafthurm_lookup(plan.as_ptr(), plan.len(), sheet.as_ptr(), sheet.len(), destination) };
    &sheet[part.start..part.start + part.size]
}

pub fn lookup_route(plan: &[u8], sheet: &[u8], destination: u16) -> Result<Route, Refused> {
    unsafe { raw::nafthurm_lookup_route(plan.as_ptr(), plan.len(), sheet.as_ptr(), sheet.len(), destination) }.read()
}

/// A version 1 sheet as version 2, its entries' bytes unchanged, into `out`: how many bytes are written. It stands for the same walks; where an entry cannot be
/// kept, write the sheet anew from the plan in use.
pub fn convert(plan: &[u8], sheet: &[u8], out: &mut [u8]) -> Result<usize, NotConverted> {
    let converted = unsafe { raw::nafthurm_convert(plan.as_ptr(), plan.len(), sheet.as_ptr(), sheet.len(), out.as_mut_ptr(), out.len()) };
    match converted.number {
        0 => Ok(converted.size),
        raw::NOT_KEPT => Err(NotConverted::NotKept(converted.entry)),
        number => Err(NotConverted::Refused(Refused(number))),
    }
}

// ---- Packets

impl Packet {
    /// At the source of its route, with the mark on its first leg still to travel.
    pub fn new(source: u16, destination: u16, route: Route) -> Packet {
        unsafe { raw::nafthurm_new_packet(source, destination, raw::Route::of(route)) }.read()
    }

    /// Checks 5, 6, then 14.
    pub fn check(self, shape: Shape) -> Result<(), Refused> {
        accepted(unsafe { raw::nafthurm_packet_check(shape, raw::Packet::of(self)) })
    }

    /// The packet after one hop.
    pub fn step(self, shape: Shape, direction: u8) -> Result<Packet, Refused> {
        let stepped = unsafe { raw::nafthurm_step(shape, raw::Packet::of(self), direction) };
        accepted(stepped.number).map(|()| stepped.packet.read())
    }

    /// The packet before its last hop, which was made in the direction.
    pub fn take_back(self, shape: Shape, direction: u8) -> Result<Packet, Refused> {
        let taken = unsafe { raw::nafthurm_take_back(shape, raw::Packet::of(self), direction) };
        accepted(taken.number).map(|()| taken.packet.read())
    }

    /// One hop a byte.
    pub fn walk(self, shape: Shape, directions: &[u8]) -> Walked {
        let walked = unsafe { raw::nafthurm_walk(shape, raw::Packet::of(self), directions.as_ptr(), directions.len()) };
        let ending = match walked.ending {
            0 => Ending::Arrived,
            1 => Ending::NotAllowed,
            2 => Ending::UsedUp,
            _ => Ending::Refused(Refused(walked.number)),
        };
        Walked { packet: walked.packet.read(), hops: walked.hops, ending }
    }
}
