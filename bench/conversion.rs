//! Version 1 route sheets: the largest, of one kind each, and a converter in plain Rust.
use crate::plans::Machine;

const HEAD: usize = 7;
const ENTRY: usize = 5;
const NOT_KEPT: u8 = 17;
const WRONG_SHEET: u8 = 13;
const SHORT: u8 = 12;

fn word(bytes: &[u8], at: usize) -> u32 {
    bytes[at] as u32 * 256 + bytes[at + 1] as u32
}

/// The sheet of a node in the middle, of even coordinates, with an entry of this kind for every other node. A via is next to its destination. So each entry can
/// be kept.
pub fn old_sheet(machine: Machine, kind: u8) -> Vec<u8> {
    let (nodes, e) = (machine.nodes() as u16, machine.extent as u16);
    let source = e / 4 * 2 * (1 + e + e * e);
    let mut sheet = vec![1];
    for number in [4 + ENTRY as u16 * (nodes - 1), source, nodes - 1] {
        sheet.extend(number.to_be_bytes());
    }
    for dest in (0..nodes).filter(|&dest| dest != source) {
        let via = match kind {
            2..=5 if dest == 0 || dest - 1 == source => dest + 1,
            2..=5 => dest - 1,
            _ => 0,
        };
        sheet.extend(dest.to_be_bytes());
        sheet.push(kind);
        sheet.extend(via.to_be_bytes());
    }
    sheet
}

struct Shape {
    extents: [u32; 3],
    wrap: u8,
}

impl Shape {
    fn nodes(&self) -> u32 {
        self.extents.iter().product()
    }

    fn coords(&self, node: u32) -> [u32; 3] {
        let [a, b, _] = self.extents;
        [node % a, node / a % b, node / a / b]
    }

    /// Whether a leg travels exactly half a ring from an odd coordinate.
    fn odd_half(&self, from: u32, to: u32) -> bool {
        let (p, q) = (self.coords(from), self.coords(to));
        (0..3).any(|d| self.wrap >> d & 1 == 1 && 2 * p[d].abs_diff(q[d]) == self.extents[d] && p[d] % 2 == 1)
    }

    fn keeps(&self, source: u32, dest: u32, kind: u8, via: u32) -> bool {
        match kind {
            1 => !self.odd_half(source, dest),
            3 => !self.odd_half(via, dest),
            4 => !self.odd_half(source, via),
            5 => !self.odd_half(source, via) && !self.odd_half(via, dest),
            kind => kind != 11,
        }
    }

    fn is_good(&self, source: u32, dest: u32, kind: u8, via: u32) -> bool {
        let via_good = match kind {
            2..=5 => via < self.nodes() && via != source && via != dest,
            1 | 10 | 11 => via == 0,
            _ => false,
        };
        dest < self.nodes() && dest != source && via_good
    }
}

/// The converter, of a plan that no check declines.
pub fn convert(plan: &[u8], sheet: &[u8], out: &mut [u8]) -> Result<usize, u8> {
    let shape = Shape { extents: [plan[3], plan[4], plan[5]].map(u32::from), wrap: plan[6] };
    if sheet.len() < HEAD || sheet[0] != 1 {
        return Err(WRONG_SHEET);
    }
    let (length, source, count) = (word(sheet, 1) as usize, word(sheet, 3), word(sheet, 5) as usize);
    if length != sheet.len() - 3 || length != HEAD - 3 + ENTRY * count || source >= shape.nodes() {
        return Err(WRONG_SHEET);
    }
    let (mut least, mut kept) = (0, true);
    for entry in sheet[HEAD..].chunks_exact(ENTRY) {
        let (dest, kind, via) = (word(entry, 0), entry[2], word(entry, 3));
        if dest < least || !shape.is_good(source, dest, kind, via) {
            return Err(WRONG_SHEET);
        }
        kept &= shape.keeps(source, dest, kind, via);
        least = dest + 1;
    }
    if !kept {
        return Err(NOT_KEPT);
    }
    if out.len() < sheet.len() {
        return Err(SHORT);
    }
    out[..sheet.len()].copy_from_slice(sheet);
    out[0] = 2;
    Ok(sheet.len())
}
