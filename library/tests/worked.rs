//! Document 01's worked machine W and its edges, a machine with weights, half rings, old route sheets, and hops taken back.
use nafthurm::Mode::{Adaptive, Deterministic};
use nafthurm::*;

const W: [u8; 12] = [1, 0, 9, 4, 4, 1, 3, 0, 1, 0, 0, 0];

/// W with another dead link, 3 X+, and of version 2: X weighs 3.
const WEIGHED: [u8; 15] = [2, 0, 12, 4, 4, 1, 3, 3, 1, 1, 0, 1, 0, 3, 0];

fn sheet_of_w() -> Vec<u8> {
    let mut out = [0xEE; 80];
    assert_eq!(write_sheet(&W, 0, &mut out), Ok(63));
    assert!(out[63..].iter().all(|&b| b == 0xEE));
    out[..63].to_vec()
}

fn route(plan: &[u8], source: u16, destination: u16) -> Result<(Route, u16), Refused> {
    pair(plan, source, destination).map(|p| (p.route, p.length))
}

#[test]
fn pairs() {
    assert_eq!(route(&W, 0, 1), Ok((Route::Vias(3, 2, Adaptive, Adaptive, Adaptive), 3)));
    assert_eq!(route(&W, 0, 2), Ok((Route::Via(3, Adaptive, Adaptive), 2)));
    assert_eq!(route(&W, 0, 7), Ok((Route::Direct(Adaptive), 2)));
    assert_eq!(route(&W, 0, 0), Ok((Route::Direct(Adaptive), 0)));
    assert_eq!(route(&W, 0, 16), Err(Refused(9)));
    assert_eq!(route(&[1, 0, 9, 4, 1, 1, 1, 0, 1, 0, 0, 0], 0, 1), Ok((Route::Vias(3, 2, Adaptive, Adaptive, Adaptive), 3)));
    assert_eq!(route(&[1, 0, 9, 5, 1, 1, 1, 0, 1, 0, 0, 0], 0, 1), Ok((Route::Via(3, Adaptive, Adaptive), 4)));
    assert_eq!(route(&[1, 0, 9, 2, 1, 1, 0, 0, 1, 0, 0, 0], 0, 1), Err(Refused(11)));
    assert_eq!(route(&[1, 0, 9, 1, 1, 1, 0, 0, 1, 0, 0, 3], 0, 0), Err(Refused(10)));
}

#[test]
fn weights() {
    assert_eq!(route(&[1, 0, 9, 4, 4, 1, 3, 0, 1, 0, 3, 0], 0, 3), Ok((Route::Vias(1, 2, Adaptive, Adaptive, Adaptive), 3)));
    assert_eq!(route(&WEIGHED, 0, 3), Ok((Route::Vias(4, 7, Adaptive, Adaptive, Adaptive), 5)));
    assert_eq!(route(&[2, 0, 9, 16, 16, 16, 0, 8, 8, 8, 0, 0], 0, 4095), Ok((Route::Direct(Adaptive), 360)));
    assert_eq!(route(&[2, 0, 9, 16, 16, 16, 0, 8, 8, 9, 0, 0], 0, 4095), Err(Refused(16)));
    assert_eq!(plan_weights(&WEIGHED), Weights { x: 3, y: 1, z: 1 });
    assert_eq!(plan_weights(&W), Weights { x: 1, y: 1, z: 1 });
    assert_eq!(plan_weights(&WEIGHED[..11]), Weights { x: 0, y: 0, z: 0 });
    assert_eq!(plan_check(&WEIGHED[..11]), Err(Refused(1)));
    let mut out = [0xEE; 16];
    assert_eq!(plan_write_back(&WEIGHED, &mut out), Ok(15));
    assert_eq!((&out[..15], out[15]), (&WEIGHED[..], 0xEE));
}

#[test]
fn plans() {
    assert_eq!(plan_check(&W), Ok(()));
    assert_eq!(plan_check(&[]), Err(Refused(1)));
    assert_eq!(plan_check(&[1, 0, 6, 17, 1, 1, 0, 0, 0]), Err(Refused(5)));
    assert_eq!(plan_check(&[1, 0, 6, 2, 1, 1, 1, 0, 0]), Err(Refused(6)));
    assert_eq!(plan_shape(&W), Shape { x: 4, y: 4, z: 1, wrap: 3 });
    assert!(dead_link(&W, 0, 0) && dead_link(&W, 1, 1) && !dead_link(&W, 0, 1) && !dead_node(&W, 0));
    let mut out = [0xEE; 13];
    assert_eq!(plan_write_back(&W, &mut out[..11]), Err(Refused(12)));
    assert_eq!(out, [0xEE; 13]);
    assert_eq!(plan_write_back(&W, &mut out), Ok(12));
    assert_eq!((&out[..12], out[12]), (&W[..], 0xEE));
}

#[test]
fn sheets() {
    let mut out = [0xEE; 62];
    assert_eq!(write_sheet(&W, 0, &mut out), Err(Refused(12)));
    assert_eq!(out, [0xEE; 62]);
    let sheet = sheet_of_w();
    assert_eq!(sheet[..14], [3, 0, 0x3C, 0, 0, 0, 8, 0, 1, 32, 0, 3, 0, 2]);
    assert_eq!(sheet_check(&W, &sheet), Ok(()));
    assert_eq!(sheet_check(&W, &sheet[1..]), Err(Refused(13)));
    let mut back = [0; 63];
    assert_eq!(sheet_write_back(&W, &sheet, &mut back), Ok(63));
    assert_eq!(back[..], sheet[..]);
    for version in [1, 2, 4] {
        let other = [&[version], &sheet[1..]].concat();
        assert_eq!(sheet_check(&W, &other), Err(Refused(13)));
        assert_eq!(sheet_write_back(&W, &other, &mut back), Err(Refused(13)));
        assert_eq!(lookup_route(&W, &other, 1), Err(Refused(13)));
        assert!(lookup(&W, &other, 1).is_empty());
    }
}

/// Version 2 is read, and written again as version 3.
#[test]
fn second_version() {
    let second = [2, 0, 29, 0, 0, 0, 5, 0, 1, 3, 0, 3, 0, 2, 2, 0, 3, 0, 5, 4, 0, 4, 0, 6, 10, 0, 0, 0, 7, 11, 0, 0];
    let third = [
        3, 0, 39, 0, 0, 0, 5, 0, 1, 18, 0, 3, 0, 0, 0, 2, 16, 0, 3, 0, 0, 0, 5, 17, 0, 4, 0, 0, 0, 6, 160, 0, 0, 0, 0, 0, 7, 176, 0, 0, 0, 0,
    ];
    let mut out = [0xEE; 43];
    assert_eq!(sheet_write_back(&W, &second, &mut out[..41]), Err(Refused(12)));
    assert_eq!(sheet_write_back(&W, &second, &mut out), Ok(42));
    assert_eq!((&out[..42], out[42]), (&third[..], 0xEE));
    assert!(std::ptr::eq(lookup(&W, &second, 2), &second[12..17]));
    for destination in 0..17 {
        assert_eq!(lookup_route(&W, &second, destination), lookup_route(&W, &third, destination));
    }
    assert_eq!((lookup_route(&W, &third, 6), lookup_route(&W, &third, 7)), (Err(Refused(10)), Err(Refused(11))));
}

/// W's sheet of source 0 as document 01 has it: its first entry is by 4, where planning now goes by 3 and 2.
const OLD: [u8; 47] = [
    1, 0, 0x2C, 0, 0, 0, 8, 0, 1, 3, 0, 4, 0, 2, 2, 0, 3, 0, 5, 2, 0, 4, 0, 6, 2, 0, 3, 0, 9, 2, 0, 4, 0, 10, 2, 0, 3, 0, 13, 2, 0, 12, 0, 14, 2, 0, 3,
];

fn refused(number: u8) -> Result<usize, NotConverted> {
    Err(NotConverted::Refused(Refused(number)))
}

#[test]
fn old_sheets() {
    let mut out = [0xEE; 48];
    for room in 0..47 {
        assert_eq!(convert(&W, &OLD, &mut out[..room]), refused(12));
    }
    for size in 0..47 {
        assert_eq!(convert(&W, &OLD[..size], &mut out), refused(13));
    }
    assert_eq!(convert(&W[..8], &OLD, &mut out), refused(1));
    let now = sheet_of_w();
    assert_eq!(convert(&W, &now, &mut out), refused(13));
    let by_3 = [&OLD[..11], &[3], &OLD[12..]].concat();
    assert_eq!(convert(&W, &by_3, &mut out), Err(NotConverted::NotKept(0)));
    assert_eq!(out, [0xEE; 48]);
    assert_eq!(convert(&W, &OLD, &mut out), Ok(47));
    assert_eq!((out[0], &out[1..47], out[47]), (2, &OLD[1..], 0xEE));
    assert_eq!(lookup_route(&W, &out[..47], 1), Ok(Route::Via(4, Adaptive, Deterministic)));
    assert_eq!(lookup_route(&W, &OLD, 1), Err(Refused(13)));
}

/// As planned when every half ring went plus, on rings with one dead link.
#[test]
fn old_sheets_of_rings() {
    let converted = |length: u8, dead: u8, sheet: &[u8]| convert(&[1, 0, 9, length, 1, 1, 1, 0, 1, 0, dead, 0], sheet, &mut [0; 30]);
    assert_eq!(converted(4, 0, &[1, 0, 14, 0, 0, 0, 2, 0, 1, 11, 0, 0, 0, 2, 2, 0, 3]), Err(NotConverted::NotKept(0)));
    assert_eq!(converted(4, 0, &[1, 0, 14, 0, 1, 0, 2, 0, 0, 3, 0, 2, 0, 3, 2, 0, 2]), Ok(17));
    assert_eq!(converted(6, 0, &[1, 0, 19, 0, 1, 0, 3, 0, 0, 3, 0, 3, 0, 4, 2, 0, 2, 0, 5, 2, 0, 3]), Err(NotConverted::NotKept(0)));
    assert_eq!(converted(8, 1, &[1, 0, 24, 0, 2, 0, 4, 0, 0, 2, 0, 5, 0, 1, 3, 0, 5, 0, 6, 2, 0, 3, 0, 7, 2, 0, 4]), Err(NotConverted::NotKept(1)));
    assert_eq!(converted(3, 0, &[1, 0, 4, 0, 2, 0, 0]), Ok(7));
}

#[test]
fn all_sheets_of_w() {
    let one = |source| {
        let mut out = vec![0; SHEET_BYTES];
        let size = write_sheet(&W, source, &mut out).unwrap();
        out[..size].to_vec()
    };
    let sheets: Vec<Vec<u8>> = (0..16).map(one).collect();
    let mut work = [0xEEEE; 16 * ALL_WORDS_A_BOARD];
    for room in [63, 100, 16 * 63, 2000] {
        let (mut from, mut row, mut out) = (0, vec![], vec![0xEE; room]);
        while from < 16 {
            let run = all_sheets(&W, from, &mut work, &mut out).unwrap();
            assert!(run.next > from && out[run.size..].iter().all(|&b| b == 0xEE));
            row.extend_from_slice(&out[..run.size]);
            out.fill(0xEE);
            from = run.next;
        }
        assert_eq!(row, sheets.concat());
    }
    let mut out = [0; 100];
    assert_eq!(all_sheets(&W, 0, &mut work, &mut out[..62]), Err(NoRun::Refused(Refused(12))));
    assert_eq!(all_sheets(&W, 16, &mut work, &mut out), Err(NoRun::Refused(Refused(9))));
    assert_eq!(all_sheets(&W[..8], 0, &mut work, &mut out), Err(NoRun::Refused(Refused(1))));
    assert_eq!(all_sheets(&W, 0, &mut work[1..], &mut out), Err(NoRun::FewWords));
}

#[test]
fn listings() {
    let mut out = [0; LISTING_BYTES];
    let input = [&[0, 0], &W[..]].concat();
    let size = listing(&input, &mut out).unwrap();
    assert!(out[..size].starts_with(b"0 16 1\n0 0 - - 0\n1 32 3 2 3\n2 16 3 - 2\n3 0 - - 1\n") && out[..size].ends_with(b"14 16 3 - 3\n15 0 - - 2\n"));
    assert_eq!(listing(&input, &mut out[..size - 1]), Err(Refused(12)));
    assert_eq!(listing(&input[..1], &mut out), Ok(10));
    assert_eq!(&out[..10], b"refused 1\n");
}

#[test]
fn lookups() {
    let sheet = sheet_of_w();
    assert!(std::ptr::eq(lookup(&W, &sheet, 2), &sheet[14..21]));
    assert!(lookup(&W, &sheet, 7).is_empty() && lookup(&W, &sheet, 16).is_empty());
    for destination in 0..16 {
        assert_eq!(lookup_route(&W, &sheet, destination), pair(&W, 0, destination).map(|p| p.route));
    }
    assert_eq!(lookup_route(&W, &sheet, 16), Err(Refused(9)));
    assert_eq!(lookup_route(&W[..8], &sheet, 1), Err(Refused(1)));
}

#[test]
fn packets() {
    let shape = plan_shape(&W);
    for destination in 0..16 {
        let planned = pair(&W, 0, destination).unwrap();
        let new = Packet::new(0, destination, planned.route);
        assert_eq!(new.check(shape), Ok(()));
        let (mut packet, mut taken) = (new, vec![]);
        while let Some((direction, next)) = (0..6).rev().find_map(|d| packet.step(shape, d).ok().map(|p| (d, p))) {
            assert!(!dead_link(&W, packet.node, direction));
            packet = next;
            taken.push(direction);
        }
        assert_eq!((packet.node, taken.len()), (destination, planned.length as usize));
        let walked = new.walk(shape, &taken);
        assert_eq!((walked.packet.node, walked.hops, walked.ending), (destination, taken.len(), Ending::Arrived));
        while let Some(direction) = taken.pop() {
            let before = packet.take_back(shape, direction).unwrap();
            assert_eq!(before.step(shape, direction), Ok(packet));
            packet = before;
        }
        assert_eq!(packet, new);
        assert!((0..=255).all(|direction| new.take_back(shape, direction) == Err(Refused(18))));
    }
    let packet = Packet::new(0, 2, Route::Via(3, Adaptive, Adaptive));
    assert_eq!(packet.walk(shape, &[1]).ending, Ending::UsedUp);
    assert_eq!(packet.walk(shape, &[1, 0]).ending, Ending::NotAllowed);
    assert_eq!(packet.step(shape, 6), Err(Refused(15)));
    let three = Packet::new(0, 1, Route::Vias(3, 2, Adaptive, Deterministic, Adaptive));
    assert_eq!((three.count, three.legs.map(|leg| (leg.target, leg.mode))), (3, [(3, Adaptive), (2, Deterministic), (1, Adaptive)]));
    assert_eq!((three.source, three.node, three.mark, three.walk(shape, &[1, 1]).packet.mark), (0, 0, 0, 2));
    assert_eq!(Packet::new(3, 3, Route::Direct(Adaptive)).mark, 1);
    assert_eq!((three.walk(shape, &[1, 1, 1]).packet.node, three.walk(shape, &[1, 1, 1]).ending), (1, Ending::Arrived));
    let four = Packet { count: 4, ..packet };
    assert_eq!(four.walk(shape, &[1]), Walked { packet: four, hops: 0, ending: Ending::Refused(Refused(14)) });
    assert_eq!(four.step(Shape { x: 17, ..shape }, 1), Err(Refused(5)));
}

/// By any direction in which an allowed walk of the route ends at the packet.
#[test]
fn hops_back() {
    let shape = plan_shape(&W);
    let back = |source, node, legs: &[(u16, Mode)], mark| {
        let mut all = [Leg { target: 60000, mode: Adaptive }; 3];
        for (i, &(target, mode)) in legs.iter().enumerate() {
            all[i] = Leg { target, mode };
        }
        let packet = Packet { source, node, legs: all, count: legs.len() as u8, mark };
        let before = |d| packet.take_back(shape, d).ok().map(|b| (d, b.node, b.mark));
        (0..=255).filter_map(before).collect::<Vec<(u8, u16, u8)>>()
    };
    assert_eq!(back(0, 5, &[(5, Adaptive)], 1), [(0, 4, 0), (2, 1, 0)]);
    assert_eq!(back(0, 5, &[(5, Deterministic)], 1), [(2, 1, 0)]);
    assert_eq!((back(0, 2, &[(2, Deterministic)], 1), back(1, 3, &[(3, Deterministic)], 1)), (vec![(0, 1, 0)], vec![(1, 0, 0)]));
    assert_eq!(back(0, 3, &[(2, Deterministic)], 0), []);
    assert_eq!(back(0, 1, &[(1, Adaptive), (1, Deterministic), (2, Adaptive)], 2), [(0, 0, 0)]);
    assert_eq!(back(0, 1, &[(1, Adaptive), (1, Deterministic), (2, Adaptive)], 1), []);
    assert_eq!(back(0, 0, &[(1, Adaptive), (3, Deterministic)], 1), [(1, 1, 1)]);
    assert_eq!(Packet { mark: 2, ..Packet::new(0, 5, Route::Direct(Adaptive)) }.take_back(shape, 6), Err(Refused(14)));
}

#[test]
fn half_rings() {
    let shape = Shape { x: 6, y: 4, z: 1, wrap: 3 };
    let ways = |node, target, mode| (0..4).filter(|&d| Packet::new(node, target, Route::Direct(mode)).step(shape, d).is_ok()).collect::<Vec<u8>>();
    assert_eq!((ways(0, 3, Deterministic), ways(1, 4, Deterministic)), (vec![0], vec![1]));
    assert_eq!((ways(7, 19, Deterministic), ways(1, 13, Deterministic)), (vec![3], vec![2]));
    assert_eq!((ways(1, 4, Adaptive), ways(7, 19, Adaptive)), (vec![0, 1], vec![2, 3]));
}

#[test]
fn largest_sheet() {
    let plan = [1, 0, 6, 16, 16, 16, 7, 0, 0];
    let mut sheet = vec![3, 0, 0, 0, 0, 0x0F, 0xFF];
    for destination in 1..4096u16 {
        sheet.extend([(destination >> 8) as u8, destination as u8, 1, 0, 0, 0, 0]);
    }
    assert_eq!(sheet.len(), SHEET_BYTES);
    let follows = (SHEET_BYTES - 3) as u16;
    sheet[1..3].copy_from_slice(&follows.to_be_bytes());
    assert_eq!(sheet_check(&plan, &sheet), Ok(()));
    assert_eq!(lookup(&plan, &sheet, 4095), &[0x0F, 0xFF, 1, 0, 0, 0, 0]);
    assert_eq!(lookup_route(&plan, &sheet, 4095), Ok(Route::Direct(Deterministic)));
}
