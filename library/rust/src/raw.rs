//! The calls as C has them: library/nafthurm.h.
use crate::{Leg, Mode, Refused, Shape, Weights};

/// The number of a run whose workspace is too small.
pub const FEW_WORDS: u8 = 255;

/// The number of a conversion whose sheet has an entry that cannot be kept.
pub const NOT_KEPT: u8 = 17;

#[repr(C)]
pub struct Written {
    pub number: u8,
    pub size: usize,
}

#[repr(C)]
pub struct Run {
    pub number: u8,
    pub next: u16,
    pub size: usize,
}

#[repr(C)]
pub struct Converted {
    pub number: u8,
    pub entry: u16,
    pub size: usize,
}

#[repr(C)]
pub struct Part {
    pub start: usize,
    pub size: usize,
}

#[repr(C)]
pub struct Route {
    pub number: u8,
    pub kind: u8,
    pub via: [u16; 2],
}

#[repr(C)]
pub struct Planned {
    pub route: Route,
    pub length: u16,
}

#[repr(C)]
pub struct RawLeg {
    pub target: u16,
    pub mode: u8,
}

#[repr(C)]
pub struct Packet {
    pub source: u16,
    pub node: u16,
    pub legs: [RawLeg; 3],
    pub count: u8,
    pub mark: u8,
}

#[repr(C)]
pub struct Stepped {
    pub packet: Packet,
    pub number: u8,
}

#[repr(C)]
pub struct Walked {
    pub packet: Packet,
    pub number: u8,
    pub ending: u8,
    pub hops: usize,
}

extern "C" {
    pub fn nafthurm_plan_check(plan: *const u8, plan_size: usize) -> u8;
    pub fn nafthurm_plan_shape(plan: *const u8, plan_size: usize) -> Shape;
    pub fn nafthurm_plan_weights(plan: *const u8, plan_size: usize) -> Weights;
    pub fn nafthurm_dead_node(plan: *const u8, plan_size: usize, node: u16) -> bool;
    pub fn nafthurm_dead_link(plan: *const u8, plan_size: usize, node: u16, direction: u8) -> bool;
    pub fn nafthurm_plan_write_back(plan: *const u8, plan_size: usize, out: *mut u8, out_size: usize) -> Written;
    pub fn nafthurm_pair(plan: *const u8, plan_size: usize, source: u16, destination: u16) -> Planned;
    pub fn nafthurm_write_sheet(plan: *const u8, plan_size: usize, source: u16, out: *mut u8, out_size: usize) -> Written;
    pub fn nafthurm_all_sheets(plan: *const u8, plan_size: usize, from: u16, work: *mut u16, work_words: usize, out: *mut u8, out_size: usize) -> Run;
    pub fn nafthurm_listing(input: *const u8, input_size: usize, out: *mut u8, out_size: usize) -> Written;
    pub fn nafthurm_sheet_check(plan: *const u8, plan_size: usize, sheet: *const u8, sheet_size: usize) -> u8;
    pub fn nafthurm_sheet_write_back(plan: *const u8, plan_size: usize, sheet: *const u8, sheet_size: usize, out: *mut u8, out_size: usize) -> Written;
    pub fn nafthurm_lookup(plan: *const u8, plan_size: usize, sheet: *const u8, sheet_size: usize, destination: u16) -> Part;
    pub fn nafthurm_lookup_route(plan: *const u8, plan_size: usize, sheet: *const u8, sheet_size: usize, destination: u16) -> Route;
    pub fn nafthurm_convert(plan: *const u8, plan_size: usize, sheet: *const u8, sheet_size: usize, out: *mut u8, out_size: usize) -> Converted;
    pub fn nafthurm_new_packet(source: u16, destination: u16, route: Route) -> Packet;
    pub fn nafthurm_packet_check(shape: Shape, packet: Packet) -> u8;
    pub fn nafthurm_step(shape: Shape, packet: Packet, direction: u8) -> Stepped;
    pub fn nafthurm_take_back(shape: Shape, packet: Packet, direction: u8) -> Stepped;
    pub fn nafthurm_walk(shape: Shape, packet: Packet, directions: *const u8, directions_size: usize) -> Walked;
}

use Mode::{Adaptive, Deterministic};

/// A bit for each deterministic leg, leg one lowest.
fn bits(modes: &[Mode]) -> u8 {
    modes.iter().rev().fold(0, |bits, &mode| 2 * bits + mode as u8)
}

impl Route {
    pub fn of(route: crate::Route) -> Route {
        let (kind, via) = match route {
            crate::Route::Direct(mode) => (bits(&[mode]), [0, 0]),
            crate::Route::Via(via, first, second) => (16 + bits(&[first, second]), [via, 0]),
            crate::Route::Vias(via, further, first, second, third) => (32 + bits(&[first, second, third]), [via, further]),
        };
        Route { number: 0, kind, via }
    }

    pub fn read(self) -> Result<crate::Route, Refused> {
        if self.number != 0 {
            return Err(Refused(self.number));
        }
        let [first, second, third] = [0, 1, 2].map(|leg| mode(self.kind >> leg & 1));
        Ok(match self.kind / 16 {
            0 => crate::Route::Direct(first),
            1 => crate::Route::Via(self.via[0], first, second),
            _ => crate::Route::Vias(self.via[0], self.via[1], first, second, third),
        })
    }
}

fn mode(raw: u8) -> Mode {
    if raw == 0 {
        Adaptive
    } else {
        Deterministic
    }
}

fn raw_leg(leg: Leg) -> RawLeg {
    RawLeg { target: leg.target, mode: leg.mode as u8 }
}

fn leg(raw: RawLeg) -> Leg {
    Leg { target: raw.target, mode: mode(raw.mode) }
}

impl Packet {
    pub fn of(packet: crate::Packet) -> Packet {
        Packet { source: packet.source, node: packet.node, legs: packet.legs.map(raw_leg), count: packet.count, mark: packet.mark }
    }

    pub fn read(self) -> crate::Packet {
        crate::Packet { source: self.source, node: self.node, legs: self.legs.map(leg), count: self.count, mark: self.mark }
    }
}
