//! Cases of spans (document 02, W1), by hand as those of cases.rs: of cards that these calls have
//! made, and of such cards with a number put on them. Block l of a volume is its bytes 512 * l to
//! 512 * l + 511. So 700 bytes from byte 300 on end with byte 999, in block 1; byte 65,536 is the
//! first of block 128, and of the second group.

use crate::cases::{
    check, descriptor, list, read, read_span, ream, revert, snap, visit, write, write_span, Case,
    Step,
};

/// All cases.
pub fn all() -> Vec<Case> {
    let mut cases = Vec::new();
    let mut case = |name: &str, blocks: usize, steps: Vec<Step>| {
        cases.push(Case {
            name: format!("span{name}"),
            blocks,
            steps,
        });
    };
    case(": area of one block", 1, no_area());
    case(": refusals", 8, refusals());
    for layout in [1, 2] {
        let mut case = |name: &str, blocks: usize, steps: Vec<Step>| {
            case(&format!(", layout {layout}: {name}"), blocks, steps);
        };
        case("the end of the volume", 8, end(layout));
        case("far past the end", 8, far(layout));
        case("the last byte of the largest volume", 120, largest(layout));
        case("inside one block", 8, inside(layout));
        case("length 0", 8, empty(layout));
        case("zeros", 8, zeros(layout));
        case("blocks of one group, just room", 4, one_group(layout));
        case("blocks of one group, one short", 3, one_group_short(layout));
        case("blocks of two groups, just room", 5, two_groups(layout));
        case(
            "blocks of two groups, one short",
            4,
            two_groups_short(layout),
        );
        case("130 blocks, just room", 134, three_groups(layout));
        case("130 blocks, one short", 133, three_groups_short(layout));
        case("the largest, just room", 14_449, whole_volume(layout, true));
        case(
            "the largest, one short",
            14_448,
            whole_volume(layout, false),
        );
        // In layout 1 the second opening has two table blocks.
        let (just, most) = if layout == 1 { (10, 514) } else { (8, 259) };
        case("a frozen table, just room", just, frozen(layout));
        case("a frozen table, one short", just - 1, frozen_short(layout));
        case("a frozen table's other entries", 16, other_entries(layout));
        case("nil blocks at both ends", 8, nil_ends(layout));
        case("700 bytes of three blocks", 8, three_blocks(layout));
        case("whole blocks", 8, whole_blocks(layout));
        for revision in [0, 1] {
            let name = format!("after a rollback on revision {revision}");
            case(&name, 16, rolled_back(layout, revision));
        }
        case("255 visits, just room", most, most_visits(layout, true));
        case(
            "255 visits, one short",
            most - 1,
            most_visits(layout, false),
        );
        case("a card that fails check", 16, fails_check(layout));
        case("10 before 11", 3, no_room(layout));
        case("an entry not in place", 16, misplaced(layout));
    }
    case(": old and new tables", 11, tables());
    case(": more that fails check", 16, fails_more());
    case(": entries of Phi", 16, phi());
    case(": an entry past beta of the visit", 16, of_visit());
    case(": unsound chain", 16, unsound());
    cases
}

/// Bytes of these values, each so many times.
fn bytes(parts: &[(u8, usize)]) -> Vec<u8> {
    let parts = parts.iter().map(|(value, times)| vec![*value; *times]);
    parts.collect::<Vec<_>>().concat()
}

/// A table block with these entries, by their place and all below 256.
fn table(entries: &[(usize, u8)]) -> Vec<u8> {
    let mut block = vec![0; 512];
    for (j, entry) in entries {
        block[4 * j] = *entry;
    }
    block
}

/// A descriptor of layout, L, alpha, beta and next, of the active store on revision 0; Phi is left
/// out in layout 1.
fn active(numbers: [u32; 5], phi: &[u32]) -> Vec<u8> {
    let phi = if numbers[0] == 1 { &[] } else { phi };
    descriptor(numbers, "fs", 0, phi)
}

/// 1 stands before all others.
fn no_area() -> Vec<Step> {
    vec![
        read_span("*", 0, vec![]).refused(1),
        read_span("", u64::MAX, vec![0; 2]).refused(1),
        write_span(0, vec![]).refused(1),
        write_span(u64::MAX, vec![1; 2]).refused(1),
    ]
}

/// 4, 6, 7, 16, in this order. An area of zeros, or of other bytes without the mark, has no
/// descriptor at 0. The active store's own name is no snapshot's. L 9 has 4,608 bytes.
fn refusals() -> Vec<Step> {
    vec![
        read_span("", u64::MAX, vec![0; 2]).refused(4),
        read_span("MON", 0, vec![]).refused(4),
        read_span("abcdefghijklmnopq", 0, vec![0]).refused(4),
        read_span("mon", u64::MAX, vec![0; 2]).refused(6),
        read_span("*", u64::MAX, vec![0; 2]).refused(6),
        read_span("*", 0, vec![]).refused(6),
        write_span(u64::MAX, vec![1; 2]).refused(6),
        write_span(0, vec![]).refused(6),
        ream(2, 9, 1, "fs"),
        read_span("MON", 4_608, vec![0]).refused(4),
        read_span("mon", 4_608, vec![0]).refused(7),
        read_span("mon", 0, vec![]).refused(7),
        read_span("fs", 0, vec![0]).refused(7),
        read_span("*", 4_608, vec![0]).refused(16),
        snap("mon"),
        read_span("MON", 0, vec![0]).refused(4),
        read_span("tue", 4_609, vec![]).refused(7),
        read_span("fs", 4_609, vec![]).refused(7),
        read_span("mon", 4_609, vec![]).refused(16),
        read_span("mon", 4_608, vec![0]).refused(16),
        read_span("mon", 4_608, vec![]),
        read_span("mon", 4_607, vec![0]),
        // No other length is refused.
        read_span("mon", 0, vec![0; 511]),
        read_span("mon", 0, vec![0; 513]),
        list(&[("mon", 0, 1, 1), ("fs", 1, 2, 0)]),
    ]
}

/// L 9 has 4,608 bytes. The last of them is the last of block 8; in either layout its data are
/// block 2.
fn end(layout: u64) -> Vec<Step> {
    let c = if layout == 1 { 2 } else { 1 };
    vec![
        ream(layout, 9, 0, "fs"),
        read_span("*", 4_608, vec![]),
        read_span("*", 4_608, vec![0]).refused(16),
        read_span("*", 4_609, vec![]).refused(16),
        read_span("*", 4_607, vec![0]),
        read_span("*", 4_607, vec![0; 2]).refused(16),
        read_span("*", 0, vec![0; 4_608]),
        read_span("*", 0, vec![0; 4_609]).refused(16),
        read_span("*", 1, vec![0; 4_607]),
        read_span("*", 1, vec![0; 4_608]).refused(16),
        write_span(4_608, vec![]).keeps(8),
        write_span(4_608, vec![1]).refused(16),
        write_span(4_609, vec![]).refused(16),
        write_span(4_607, vec![1; 2]).refused(16),
        write_span(0, vec![1; 4_609]).refused(16),
        list(&[("fs", 0, c, 0)]),
        write_span(4_607, vec![7]).stores(2, bytes(&[(0, 511), (7, 1)])),
        list(&[("fs", 0, 3, 0)]),
        read_span("*", 4_606, vec![0, 7]),
        read_span("*", 4_096, bytes(&[(0, 511), (7, 1)])),
        read_span("*", 4_607, vec![0; 2]).refused(16),
    ]
}

/// Offset and length are added without a limit: neither 64 bits nor, for a block's number, 32 are
/// enough for these. 2^41 is the first byte of block 2^32.
fn far(layout: u64) -> Vec<Step> {
    let c = if layout == 1 { 2 } else { 1 };
    let mut steps = vec![ream(layout, 9, 0, "fs")];
    for (offset, length) in [
        (u64::MAX, 0),
        (u64::MAX, 1),
        (u64::MAX, 2),
        (u64::MAX, 512),
        // Together 2^64, and 2^64 + 512.
        (u64::MAX - 511, 512),
        (u64::MAX - 511, 1_024),
        (u64::MAX - 511, 0),
        (1 << 63, 0),
        (1 << 63, 1),
        (1 << 41, 0),
        (1 << 41, 1),
        ((1 << 41) + 4_607, 1),
        (1 << 32, 0),
        (1 << 32, 1),
        ((1 << 32) + 4_607, 1),
        (65_536, 1),
    ] {
        steps.push(read_span("*", offset, vec![0; length]).refused(16));
        steps.push(write_span(offset, vec![1; length]).refused(16));
    }
    steps.push(list(&[("fs", 0, c, 0)]));
    steps.push(read_span("*", 0, vec![0; 4_608]));
    steps
}

/// L 14,336 has 7,340,032 bytes; the last is the last of block 14,335, entry 127 of the 112th
/// table. In layout 1, where c is 113, that is block 112; in layout 2 the last entry of Phi names
/// it. Block 14,208 is the first of the last group, from byte 7,274,496 on.
fn largest(layout: u64) -> Vec<Step> {
    let mut steps = vec![
        ream(layout, 14_336, 0, "fs"),
        read_span("*", 7_340_032, vec![]),
        read_span("*", 7_340_032, vec![0]).refused(16),
        write_span(7_340_032, vec![1]).refused(16),
        write_span(7_340_031, vec![1; 2]).refused(16),
    ];
    let last = bytes(&[(0, 511), (1, 1)]);
    let (before, after) = (bytes(&[(0, 511), (2, 1)]), bytes(&[(2, 1), (0, 511)]));
    let (first, second) = (
        write_span(7_340_031, vec![1]),
        write_span(7_274_495, vec![2; 2]),
    );
    if layout == 1 {
        steps.push(first.stores(112, table(&[(127, 113)])).stores(113, last));
        steps.push(list(&[("fs", 0, 114, 0)]));
        let second = second.stores(111, table(&[(127, 114)]));
        let second = second.stores(112, table(&[(0, 115), (127, 113)]));
        steps.push(second.stores(114, before).stores(115, after));
        steps.push(list(&[("fs", 0, 116, 0)]));
    } else {
        let mut phi = vec![0; 112];
        phi[111] = 1;
        let first = first.stores(0, active([2, 14_336, 0, 3, 0], &phi));
        steps.push(first.stores(1, table(&[(127, 2)])).stores(2, last));
        steps.push(list(&[("fs", 0, 3, 0)]));
        // A table and data for block 14,207; data for block 14,208.
        phi[110] = 3;
        let second = second.stores(0, active([2, 14_336, 0, 6, 0], &phi));
        let second = second.stores(1, table(&[(0, 5), (127, 2)]));
        let second = second.stores(3, table(&[(127, 4)]));
        steps.push(second.stores(4, before).stores(5, after));
        steps.push(list(&[("fs", 0, 6, 0)]));
    }
    steps.push(read_span("*", 7_340_030, vec![0, 1]));
    steps.push(read_span("*", 7_274_494, vec![0, 2, 2, 0]));
    let run = bytes(&[(2, 1), (0, 65_534), (1, 1)]);
    steps.push(read_span("*", 7_274_496, run));
    steps.push(check());
    steps
}

/// Block 3 is bytes 1,536 to 2,047. In either layout its table is block 1 and its data are block 2:
/// new and zeros around the span at first, overwritten in place afterwards.
fn inside(layout: u64) -> Vec<Step> {
    let opening = active([layout as u32, 9, 0, 3, 0], &[1]);
    let new = bytes(&[(0, 100), (7, 10), (0, 402)]);
    let over = bytes(&[(0, 100), (7, 5), (8, 10), (0, 397)]);
    let first = bytes(&[(1, 1), (0, 99), (7, 5), (8, 10), (0, 397)]);
    let last = bytes(&[(1, 1), (0, 99), (7, 5), (8, 10), (0, 396), (2, 1)]);
    vec![
        ream(layout, 9, 0, "fs"),
        write_span(1_636, vec![7; 10])
            .stores(0, opening)
            .stores(1, table(&[(3, 2)]))
            .stores(2, new.clone()),
        read_span("*", 1_536, new),
        write_span(1_641, vec![8; 10])
            .keeps(2)
            .stores(2, over.clone()),
        read_span("*", 1_536, over),
        write_span(1_536, vec![1]).keeps(2).stores(2, first),
        write_span(2_047, vec![2]).keeps(2).stores(2, last.clone()),
        list(&[("fs", 0, 3, 0)]),
        read_span("*", 1_536, last),
        read_span("*", 1_536, vec![1]),
        read_span("*", 2_047, vec![2]),
        read_span("*", 1_640, vec![7, 8]),
        // Into the blocks before and after, which are nil.
        read_span("*", 1_535, vec![0, 1]),
        read_span("*", 2_047, vec![2, 0]),
        check(),
    ]
}

/// A span of length 0 touches no block, wherever it stands, and follows no entry.
fn empty(layout: u64) -> Vec<Step> {
    let c = if layout == 1 { 2 } else { 1 };
    let mut steps = vec![ream(layout, 9, 0, "fs")];
    for offset in [0, 1, 511, 512, 4_607, 4_608] {
        steps.push(write_span(offset, vec![]).keeps(8));
        steps.push(read_span("*", offset, vec![]));
    }
    steps.extend([list(&[("fs", 0, c, 0)]), visit("*", 0, "")]);
    steps.extend([write(0, 1), snap("a"), write_span(0, vec![]).keeps(8)]);
    steps.push(list(&[("a", 0, 3, 3), ("fs", 3, 3 + c, 0)]));
    steps.push(visit("*", 0, "a"));
    steps
}

/// Zeros are written like any other bytes, in part of a block or in all of it: blocks 0 and 1 take
/// data 2 and 3, block 2 data 4, block 3 data 5, which is then set to zeros.
fn zeros(layout: u64) -> Vec<Step> {
    let listed = |beta: u64| list(&[("fs", 0, beta, 0)]);
    vec![
        ream(layout, 9, 0, "fs"),
        write_span(500, vec![0; 24])
            .stores(1, table(&[(0, 2), (1, 3)]))
            .stores(2, vec![0; 512])
            .stores(3, vec![0; 512]),
        listed(4),
        visit("*", 1, "fs"),
        visit("*", 2, ""),
        write_span(1_024, vec![0; 512]).stores(4, vec![0; 512]),
        listed(5),
        visit("*", 2, "fs"),
        write(3, 7),
        write_span(1_536, vec![0; 512])
            .keeps(5)
            .stores(5, vec![0; 512]),
        listed(6),
        read_span("*", 0, vec![0; 4_608]),
        check(),
    ]
}

/// 700 bytes from byte 300 on: 212 of block 0 and 488 of block 1. In layout 2 the first block takes
/// table 1 and data 2, the second, which finds that table, data 3: need 3. In layout 1, where L 128
/// has c 2, table 1 stands and the data are blocks 2 and 3 too: need 2. Beta is then N.
fn one_group(layout: u64) -> Vec<Step> {
    let opening = active([layout as u32, 128, 0, 4, 0], &[1]);
    vec![
        ream(layout, 128, 0, "fs"),
        write_span(300, vec![7; 700])
            .stores(0, opening)
            .stores(1, table(&[(0, 2), (1, 3)]))
            .stores(2, bytes(&[(0, 300), (7, 212)]))
            .stores(3, bytes(&[(7, 488), (0, 24)])),
        list(&[("fs", 0, 4, 0)]),
        read_span("*", 300, vec![7; 700]),
        read_span("*", 0, bytes(&[(0, 300), (7, 700), (0, 24)])),
        read_span("*", 299, vec![0, 7]),
        read_span("*", 999, vec![7, 0]),
        // What takes no block is still written; with one block more nothing is.
        write_span(0, vec![8; 1_024])
            .keeps(2)
            .stores(2, vec![8; 512])
            .stores(3, vec![8; 512]),
        write_span(1_023, vec![9; 2]).refused(11),
        write_span(1_024, vec![9]).refused(11),
        write_span(0, vec![9; 1_025]).refused(11),
        write_span(1_024, vec![]).keeps(4),
        read_span("*", 0, bytes(&[(8, 1_024), (0, 1)])),
        list(&[("fs", 0, 4, 0)]),
        check(),
    ]
}

/// The same with one block less: refused whole. Block 0 alone finds room.
fn one_group_short(layout: u64) -> Vec<Step> {
    let c = if layout == 1 { 2 } else { 1 };
    let data = bytes(&[(0, 300), (7, 212)]);
    vec![
        ream(layout, 128, 0, "fs"),
        write_span(300, vec![7; 700]).refused(11),
        write_span(300, vec![7; 213]).refused(11),
        list(&[("fs", 0, c, 0)]),
        read_span("*", 0, vec![0; 1_024]),
        write_span(300, vec![7; 212])
            .stores(1, table(&[(0, 2)]))
            .stores(2, data.clone()),
        list(&[("fs", 0, 3, 0)]),
        write_span(300, vec![8; 700]).refused(11),
        read_span("*", 0, data),
        check(),
    ]
}

/// 700 bytes from byte 65,324 on: 212 of block 127 and 488 of block 128, in two groups of L 200. In
/// layout 2 table 1, data 2, table 3, data 4: need 4. In layout 1, where c is 3, tables 1 and 2
/// stand and the data are blocks 3 and 4: need 2. Beta is then N.
fn two_groups(layout: u64) -> Vec<Step> {
    let opening = active([layout as u32, 200, 0, 5, 0], &[1, 3]);
    let (one, other) = (bytes(&[(0, 300), (7, 212)]), bytes(&[(7, 488), (0, 24)]));
    // The blocks before the first of data.
    let kept = if layout == 1 { 3 } else { 2 };
    let write = write_span(65_324, vec![7; 700]).stores(0, opening);
    let write = match layout {
        1 => write
            .stores(1, table(&[(127, 3)]))
            .stores(2, table(&[(0, 4)]))
            .stores(3, one),
        _ => write
            .stores(1, table(&[(127, 2)]))
            .stores(2, one)
            .stores(3, table(&[(0, 4)])),
    };
    vec![
        ream(layout, 200, 0, "fs"),
        write.stores(4, other),
        list(&[("fs", 0, 5, 0)]),
        read_span("*", 65_024, bytes(&[(0, 300), (7, 700), (0, 24)])),
        read_span("*", 65_535, vec![7; 2]),
        write_span(65_535, vec![8; 2]).keeps(kept),
        read_span("*", 65_534, vec![7, 8, 8, 7]),
        write_span(66_047, vec![9; 2]).refused(11),
        list(&[("fs", 0, 5, 0)]),
        check(),
    ]
}

/// The same with one block less: refused whole. Block 127 alone finds room.
fn two_groups_short(layout: u64) -> Vec<Step> {
    let (c, beta) = if layout == 1 { (3, 4) } else { (1, 3) };
    vec![
        ream(layout, 200, 0, "fs"),
        write_span(65_324, vec![7; 700]).refused(11),
        list(&[("fs", 0, c, 0)]),
        read_span("*", 65_024, vec![0; 1_024]),
        write_span(65_324, vec![7; 212]),
        list(&[("fs", 0, beta, 0)]),
        write_span(65_324, vec![8; 213]).refused(11),
        list(&[("fs", 0, beta, 0)]),
        read_span("*", 65_024, bytes(&[(0, 300), (7, 212), (0, 512)])),
        check(),
    ]
}

/// Bytes that are told apart by their place.
fn counted(length: usize) -> Vec<u8> {
    (0..length).map(|k| (k % 251) as u8).collect()
}

/// The last byte of block 127, blocks 128 to 255, and the first byte of block 256: 65,538 bytes
/// from byte 65,535 on, in three groups of L 300. In layout 2 table 1 and data 2; table 3 and data
/// 4 to 131; table 132 and data 133: need 133. In layout 1, where c is 4, the data are blocks 4 to
/// 133.
fn three_groups(layout: u64) -> Vec<Step> {
    let run = counted(65_538);
    let opening = active([layout as u32, 300, 0, 134, 0], &[1, 3, 132]);
    let ends = [
        [vec![0; 511], run[..1].to_vec()].concat(),
        [run[65_537..].to_vec(), vec![0; 511]].concat(),
    ];
    // Blocks 128 and 255.
    let (first, last) = (run[1..513].to_vec(), run[65_025..65_537].to_vec());
    let from = if layout == 1 { 5 } else { 4 };
    let entries: Vec<(usize, u8)> = (0..128).map(|j| (j, from + j as u8)).collect();
    let write = write_span(65_535, run.clone()).stores(0, opening);
    let write = match layout {
        1 => write
            .stores(1, table(&[(127, 4)]))
            .stores(2, table(&entries))
            .stores(3, table(&[(0, 133)]))
            .stores(4, ends[0].clone())
            .stores(5, first)
            .stores(132, last),
        _ => write
            .stores(1, table(&[(127, 2)]))
            .stores(2, ends[0].clone())
            .stores(3, table(&entries))
            .stores(4, first)
            .stores(131, last)
            .stores(132, table(&[(0, 133)])),
    };
    vec![
        ream(layout, 300, 0, "fs"),
        write.stores(133, ends[1].clone()),
        list(&[("fs", 0, 134, 0)]),
        read_span("*", 65_535, run.clone()),
        read_span("*", 65_024, [ends[0].clone(), run[1..].to_vec()].concat()),
        read_span("*", 66_000, run[465..2_465].to_vec()),
        read_span("*", 131_071, [run[65_536..].to_vec(), vec![0]].concat()),
        check(),
    ]
}

/// The same with one block less: refused whole, and 129 blocks find room.
fn three_groups_short(layout: u64) -> Vec<Step> {
    let c = if layout == 1 { 4 } else { 1 };
    // Without the last group: 129 blocks, and in layout 2 two tables.
    let beta = if layout == 1 { 133 } else { 132 };
    vec![
        ream(layout, 300, 0, "fs"),
        write_span(65_535, counted(65_538)).refused(11),
        list(&[("fs", 0, c, 0)]),
        read_span("*", 65_535, vec![0; 65_538]),
        write_span(65_535, counted(65_537)),
        list(&[("fs", 0, beta, 0)]),
        read_span("*", 65_535, counted(65_537)),
        write_span(131_072, vec![1]).refused(11),
        check(),
    ]
}

/// All 7,340,032 bytes of L 14,336. In layout 2 each of the 112 groups takes a table and 128 data
/// blocks: need 14,448 from beta 1. In layout 1, where c is 113, the need is 14,336. So beta is
/// 14,449 in both.
fn whole_volume(layout: u64, room: bool) -> Vec<Step> {
    let c = if layout == 1 { 113 } else { 1 };
    let run = counted(7_340_032);
    let mut steps = vec![ream(layout, 14_336, 0, "fs")];
    let write = write_span(0, run.clone());
    if room {
        // The last block's data are the last block of the card.
        steps.push(write.stores(14_448, run[7_339_520..].to_vec()));
        steps.push(list(&[("fs", 0, 14_449, 0)]));
        steps.push(read_span("*", 0, run));
    } else {
        steps.push(write.refused(11));
        steps.push(list(&[("fs", 0, c, 0)]));
        steps.push(read_span("*", 7_339_000, vec![0; 1_032]));
    }
    steps.push(check());
    steps
}

/// The frozen content of blocks 0 and 1.
fn old_run() -> Vec<u8> {
    bytes(&[(0, 300), (7, 700), (0, 24)])
}

/// The card of which blocks 0 and 1 are frozen. L 200. In layout 2: descriptor 0, table 1, data 2
/// and 3; then descriptor 4. In layout 1, where c is 3: descriptor 0, tables 1 and 2, data 3 and 4;
/// then descriptor 5, tables 6 and 7.
fn frozen_card(layout: u64, revision: u64) -> Vec<Step> {
    let listed = match layout {
        1 => list(&[("mon", 0, 5, 5), ("fs", 5, 8, 0)]),
        _ => list(&[("mon", 0, 4, 4), ("fs", 4, 5, 0)]),
    };
    vec![
        ream(layout, 200, revision, "fs"),
        write_span(300, vec![7; 700]),
        snap("mon"),
        listed,
        read_span("*", 0, old_run()),
        read_span("mon", 0, old_run()),
    ]
}

/// 112 bytes of block 0 and 388 of block 1, over old content. In layout 2 the first block takes a
/// copy of the table, 5, and data 6, the second data 7: need 3. In layout 1 the data are blocks 8
/// and 9. Beta is then N, and nothing of the visit has changed.
fn frozen(layout: u64) -> Vec<Step> {
    let one = bytes(&[(0, 300), (7, 100), (8, 112)]);
    let other = bytes(&[(8, 388), (7, 100), (0, 24)]);
    let write = write_span(400, vec![8; 500]);
    let (write, listed) = match layout {
        1 => (
            write
                .keeps(5)
                .stores(5, active([1, 200, 5, 10, 0], &[]))
                .stores(6, table(&[(0, 8), (1, 9)]))
                .stores(7, vec![0; 512])
                .stores(8, one)
                .stores(9, other),
            [("mon", 0, 5, 5), ("fs", 5, 10, 0)],
        ),
        _ => (
            write
                .keeps(4)
                .stores(1, table(&[(0, 2), (1, 3)]))
                .stores(4, active([2, 200, 4, 8, 0], &[5]))
                .stores(5, table(&[(0, 6), (1, 7)]))
                .stores(6, one)
                .stores(7, other),
            [("mon", 0, 4, 4), ("fs", 4, 8, 0)],
        ),
    };
    let run = bytes(&[(0, 300), (7, 100), (8, 500), (7, 100), (0, 24)]);
    let mut steps = frozen_card(layout, 0);
    steps.extend([write, list(&listed), read_span("*", 0, run)]);
    steps.extend([read_span("mon", 0, old_run()), visit("*", 0, "fs")]);
    steps.extend([visit("*", 1, "fs"), visit("*", 2, "")]);
    steps.extend([visit("mon", 0, "mon"), visit("mon", 1, "mon")]);
    // What takes no block is still written; with one block more nothing is.
    steps.extend([write_span(0, vec![9; 1_024]), list(&listed)]);
    steps.push(write_span(1_000, vec![3; 100]).refused(11));
    steps.push(read_span("*", 0, bytes(&[(9, 1_024), (0, 1)])));
    steps.extend([read_span("mon", 0, old_run()), list(&listed), check()]);
    steps
}

/// The same with one block less: refused whole, and the frozen content is still read. Block 0 alone
/// finds room.
fn frozen_short(layout: u64) -> Vec<Step> {
    let listed = match layout {
        1 => [("mon", 0, 5, 5), ("fs", 5, 9, 0)],
        _ => [("mon", 0, 4, 4), ("fs", 4, 7, 0)],
    };
    let mut steps = frozen_card(layout, 0);
    steps.push(write_span(400, vec![8; 500]).refused(11));
    steps.extend([read_span("*", 0, old_run()), visit("*", 0, "mon")]);
    steps.extend([write_span(400, vec![8; 112]), list(&listed)]);
    steps.push(write_span(400, vec![9; 500]).refused(11));
    let run = bytes(&[(0, 300), (7, 100), (8, 112), (7, 488), (0, 24)]);
    steps.extend([read_span("*", 0, run), visit("*", 0, "fs")]);
    steps.extend([visit("*", 1, "mon"), read_span("mon", 0, old_run())]);
    steps.extend([list(&listed), check()]);
    steps
}

/// Block 5 is written before the snap alone: the copy of the table has its entry. In layout 2 table
/// 1 and data 2, then descriptor 3, table 4, data 5 and 6. In layout 1, where c is 3, data 3, then
/// descriptor 4, tables 5 and 6, data 7 and 8.
fn other_entries(layout: u64) -> Vec<Step> {
    let mut steps = vec![ream(layout, 200, 0, "fs"), write(5, 7), snap("mon")];
    let write = write_span(300, vec![8; 700]);
    steps.push(match layout {
        1 => write.keeps(4).stores(5, table(&[(0, 7), (1, 8), (5, 3)])),
        _ => write.keeps(3).stores(4, table(&[(0, 5), (1, 6), (5, 2)])),
    });
    steps.push(match layout {
        1 => list(&[("mon", 0, 4, 4), ("fs", 4, 9, 0)]),
        _ => list(&[("mon", 0, 3, 3), ("fs", 3, 7, 0)]),
    });
    steps.extend([read("*", 5, 7), visit("*", 5, "mon"), visit("*", 0, "fs")]);
    steps.push(read_span("mon", 0, bytes(&[(0, 2_560), (7, 512)])));
    let run = bytes(&[(0, 300), (8, 700), (0, 1_560), (7, 512), (0, 1)]);
    steps.extend([read_span("*", 0, run), check()]);
    steps
}

/// Two bytes of block 2, block 3, two bytes of block 4: only block 3 is written before. In either
/// layout its data are block 2; blocks 3 and 4 are taken, with zeros outside the span.
fn nil_ends(layout: u64) -> Vec<Step> {
    vec![
        ream(layout, 9, 0, "fs"),
        write(3, 7),
        list(&[("fs", 0, 3, 0)]),
        write_span(1_534, vec![1; 516])
            .stores(1, table(&[(2, 3), (3, 2), (4, 4)]))
            .stores(2, vec![1; 512])
            .stores(3, bytes(&[(0, 510), (1, 2)]))
            .stores(4, bytes(&[(1, 2), (0, 510)])),
        list(&[("fs", 0, 5, 0)]),
        read_span("*", 1_024, bytes(&[(0, 510), (1, 516), (0, 510)])),
        check(),
    ]
}

/// The last byte of block 0, block 1, 187 bytes of block 2. In either layout the table is block 1
/// and the data are blocks 2 to 4: need 4 in layout 2, where the table is new, and 3 in layout 1.
fn three_blocks(layout: u64) -> Vec<Step> {
    vec![
        ream(layout, 9, 0, "fs"),
        write_span(511, vec![7; 700])
            .stores(1, table(&[(0, 2), (1, 3), (2, 4)]))
            .stores(2, bytes(&[(0, 511), (7, 1)]))
            .stores(3, vec![7; 512])
            .stores(4, bytes(&[(7, 187), (0, 325)])),
        list(&[("fs", 0, 5, 0)]),
        read_span("*", 511, vec![7; 700]),
        read_span("*", 0, bytes(&[(0, 511), (7, 700), (0, 325)])),
        check(),
    ]
}

/// Blocks 1 and 2 whole, as two writes of a block leave them.
fn whole_blocks(layout: u64) -> Vec<Step> {
    vec![
        ream(layout, 9, 0, "fs"),
        write_span(512, bytes(&[(1, 512), (2, 512)]))
            .stores(1, table(&[(1, 2), (2, 3)]))
            .stores(2, vec![1; 512])
            .stores(3, vec![2; 512]),
        list(&[("fs", 0, 4, 0)]),
        read("*", 0, 0),
        read("*", 1, 1),
        read("*", 2, 2),
        read("*", 3, 0),
        // The writes of whole blocks go to the same blocks.
        write(1, 3).keeps(2).stores(2, vec![3; 512]),
        write(2, 4).keeps(2).stores(3, vec![4; 512]),
        read_span("*", 512, bytes(&[(3, 512), (4, 512)])),
        list(&[("fs", 0, 4, 0)]),
    ]
}

/// The blocks from beta on hold old bytes after a rollback; block 2 is nil, and its bytes outside
/// the span are zeros. On revision 0 the visit's table is the active one's, on revision 1 it is
/// copied.
fn rolled_back(layout: u64, revision: u64) -> Vec<Step> {
    let data = bytes(&[(0, 100), (3, 10), (0, 402)]);
    let write = write_span(1_124, vec![3; 10]);
    let (write, listed) = match (layout, revision) {
        (1, 0) => (
            write
                .stores(1, table(&[(0, 3), (1, 4), (2, 5)]))
                .stores(5, data),
            vec![("fs", 0, 6, 0)],
        ),
        (1, _) => (
            write
                .keeps(5)
                .stores(6, table(&[(0, 3), (1, 4), (2, 8)]))
                .stores(8, data),
            vec![("mon", 0, 5, 5), ("fs", 5, 9, 0)],
        ),
        (_, 0) => (
            write
                .stores(1, table(&[(0, 2), (1, 3), (2, 4)]))
                .stores(4, data),
            vec![("fs", 0, 5, 0)],
        ),
        _ => (
            write
                .keeps(4)
                .stores(5, table(&[(0, 2), (1, 3), (2, 6)]))
                .stores(6, data),
            vec![("mon", 0, 4, 4), ("fs", 4, 7, 0)],
        ),
    };
    let mut steps = frozen_card(layout, revision);
    steps.extend([write_span(400, vec![8; 500]), write_span(1_124, vec![8; 9])]);
    steps.extend([revert("mon"), read_span("*", 0, old_run()), write]);
    steps.push(list(&listed));
    let run = bytes(&[(0, 300), (7, 700), (0, 124), (3, 10), (0, 402)]);
    steps.push(read_span("*", 0, run));
    if revision == 1 {
        // Once more: the span is gone, and the visit is as it was.
        let old = [old_run(), vec![0; 512]].concat();
        steps.push(read_span("mon", 0, old.clone()));
        steps.extend([revert("mon"), read_span("*", 0, old)]);
    }
    steps.push(check());
    steps
}

/// 255 visits of c blocks each and the active descriptor after them, which ends at 256 * c: 256 in
/// layout 2 and 512 in layout 1. Blocks 0 and 1 then need 3 in layout 2, and 2 in layout 1.
fn most_visits(layout: u64, room: bool) -> Vec<Step> {
    let (c, need) = if layout == 1 { (2, 2) } else { (1, 3) };
    let names: Vec<String> = (0..255).map(|k| format!("s{k}")).collect();
    let mut steps = vec![ream(layout, 9, 0, "fs")];
    steps.extend(names.iter().map(|name| snap(name)));
    let write = write_span(300, vec![7; 700]);
    let (run, end) = match room {
        true => (bytes(&[(0, 300), (7, 700), (0, 24)]), 256 * c + need),
        false => (vec![0; 1_024], 256 * c),
    };
    steps.push(if room { write } else { write.refused(11) });
    let mut given: Vec<(&str, u64, u64, u64)> = Vec::new();
    for (name, k) in names.iter().zip(0..) {
        given.push((name, k * c, (k + 1) * c, (k + 1) * c));
    }
    given.push(("fs", 255 * c, end, 0));
    steps.extend([list(&given), read_span("*", 0, run)]);
    steps.push(read_span("s254", 0, vec![0; 4_608]));
    steps.push(check());
    steps
}

/// The card on which block 5 is written before the snap and after it. L 200 has 102,400 bytes. In
/// layout 2: descriptor 0, table 1, data 2; descriptor 3, table 4, data 5 and beta 6. In layout 1,
/// where c is 3: descriptor 0, tables 1 and 2, data 3; descriptor 4, tables 5 and 6, data 7, beta
/// 8.
fn block_5(layout: u64) -> Vec<Step> {
    let mut steps = vec![ream(layout, 200, 0, "fs"), write(5, 7), snap("mon")];
    steps.push(write(5, 9));
    steps.push(match layout {
        1 => list(&[("mon", 0, 4, 4), ("fs", 4, 8, 0)]),
        _ => list(&[("mon", 0, 3, 3), ("fs", 3, 6, 0)]),
    });
    steps
}

/// The entry of block 6, bytes 3,072 to 3,583, is not in place. A span write has check's answer,
/// also where its own blocks are in place and where it has none; a span read follows its own
/// entries.
fn fails_check(layout: u64) -> Vec<Step> {
    // The active table, its data block, and the byte of entry 6.
    let (table, data, byte) = if layout == 1 { (5, 7, 24) } else { (4, 5, 24) };
    let place = table as u64;
    let mut steps = block_5(layout);
    steps.push(check().after(table, byte, 15).refused_at(10, place));
    // Length 0.
    for offset in [0, 3_072, 3_100, 102_400] {
        steps.push(read_span("*", offset, vec![]));
        steps.push(write_span(offset, vec![]).refused_at(10, place));
    }
    // 16 comes before it.
    for (offset, length) in [
        (102_400, 1),
        (102_401, 0),
        (102_399, 2),
        (3_072, 99_329),
        (u64::MAX, 0),
        (u64::MAX, 1),
    ] {
        steps.push(read_span("*", offset, vec![0; length]).refused(16));
        steps.push(write_span(offset, vec![1; length]).refused(16));
    }
    // Blocks 5 and 7 are read, and no span that touches block 6.
    steps.push(read_span("*", 2_560, vec![9; 512]));
    steps.push(read_span("*", 2_560, vec![0; 513]).refused_at(10, place));
    steps.push(read_span("*", 3_071, vec![0; 2]).refused_at(10, place));
    steps.push(read_span("*", 3_072, vec![0]).refused_at(10, place));
    steps.push(read_span("*", 3_583, vec![0]).refused_at(10, place));
    steps.push(read_span("*", 3_583, vec![0; 2]).refused_at(10, place));
    steps.push(read_span("*", 0, vec![0; 102_400]).refused_at(10, place));
    steps.push(read_span("*", 3_584, vec![0; 512]));
    steps.push(read_span("*", 3_584, vec![0; 98_816]));
    steps.push(read_span("mon", 2_560, bytes(&[(7, 512), (0, 512)])));
    // A whole block is written, and a span is not, into this group or the other.
    steps.push(write(5, 8));
    steps.push(write_span(2_560, vec![1; 512]).refused_at(10, place));
    steps.push(write_span(2_600, vec![1]).refused_at(10, place));
    steps.push(write_span(66_560, vec![1]).refused_at(10, place));
    steps.push(read_span("*", 2_560, vec![8; 512]));
    // The entry names block 5's data: read, but named twice.
    let twice = check().after(table, byte, data);
    steps.push(twice.refused_at(10, place));
    steps.push(read_span("*", 2_560, vec![8; 1_024]));
    steps.push(write_span(2_560, vec![1; 1_024]).refused_at(10, place));
    steps.push(write_span(0, vec![]).refused_at(10, place));
    // Good again: block 6 takes one block.
    steps.push(write_span(3_071, vec![1; 2]).after(table, byte, 0));
    steps.push(read_span("*", 3_070, vec![8, 1, 1, 0]));
    steps.push(match layout {
        1 => list(&[("mon", 0, 4, 4), ("fs", 4, 9, 0)]),
        _ => list(&[("mon", 0, 3, 3), ("fs", 3, 7, 0)]),
    });
    // A fault of the visit alone, in its table 1: check meets it first.
    let run = bytes(&[(8, 511), (1, 2), (0, 511)]);
    steps.push(check().after(1, byte, 15).refused_at(10, 1));
    steps.push(write_span(0, vec![]).refused_at(10, 1));
    steps.push(write_span(2_560, vec![1]).refused_at(10, 1));
    steps.push(read_span("*", 2_560, run));
    steps.push(read_span("mon", 2_560, vec![7; 512]));
    steps.push(read_span("mon", 2_560, vec![0; 513]).refused_at(10, 1));
    steps.push(read_span("mon", 3_072, vec![]));
    // Both: the place is that of check's first fault, not that of the span's own block.
    let both = check().after(table, byte, 15);
    steps.push(both.refused_at(10, 1));
    steps.push(write_span(3_072, vec![1]).refused_at(10, 1));
    steps.push(write_span(2_560, vec![1; 1_024]).refused_at(10, 1));
    steps.push(read_span("*", 3_072, vec![0]).refused_at(10, place));
    steps.push(read_span("mon", 3_072, vec![0]).refused_at(10, 1));
    // Good again; block 6 is nil.
    let good = write_span(2_560, vec![]);
    let good = good.after(1, byte, 0).after(table, byte, 0);
    steps.push(good.keeps(16));
    steps.push(read_span("*", 3_070, vec![8, 1, 0]));
    steps.push(check());
    steps
}

/// Beta is N: data are block 2, the table is block 1 in either layout. L 128 has 65,536 bytes.
fn no_room(layout: u64) -> Vec<Step> {
    vec![
        ream(layout, 128, 0, "fs"),
        write(5, 7),
        list(&[("fs", 0, 3, 0)]),
        write_span(0, vec![1]).refused(11),
        write_span(0, vec![1]).after(1, 24, 3).refused_at(10, 1),
        write_span(2_560, vec![1]).refused_at(10, 1),
        write_span(65_536, vec![1]).refused(16),
        write_span(0, vec![1]).after(1, 24, 0).refused(11),
        write_span(3_071, vec![1; 2]).refused(11),
        write_span(2_560, vec![1]),
        read_span("*", 2_560, bytes(&[(1, 1), (7, 511)])),
    ]
}

/// Blocks 127 and 128 are written; 24 bytes from 65,524 on are 12 of each. In layout 2: table 1,
/// data 2, table 3, data 4. In layout 1, where c is 3: tables 1 and 2, data 3 and 4. Beta is 5.
fn misplaced(layout: u64) -> Vec<Step> {
    let (second, old) = if layout == 1 { (2, 3) } else { (3, 2) };
    let place = second as u64;
    let mut steps = vec![ream(layout, 200, 0, "fs"), write(127, 7), write(128, 8)];
    steps.push(list(&[("fs", 0, 5, 0)]));
    steps.push(read_span("*", 65_524, bytes(&[(7, 12), (8, 12)])));
    for entry in [5, 6, 15, 16, 0x0100_0004, u32::MAX] {
        // The second block is not in place: nothing of the first is filled.
        let step = read_span("*", 65_524, vec![0; 24]).after(second, 0, entry);
        steps.push(step.refused_at(10, place));
        steps.push(read_span("*", 65_524, vec![0; 13]).refused_at(10, place));
        steps.push(read_span("*", 65_536, vec![0]).refused_at(10, place));
        steps.push(write_span(65_524, vec![1; 24]).refused_at(10, place));
        steps.push(read_span("*", 65_524, vec![7; 12]));
        steps.push(read_span("*", 65_536, vec![]));
        steps.push(read_span("*", 66_048, vec![0; 512]));
        // Nor is the first: its place is given.
        let step = read_span("*", 65_524, vec![0; 24]).after(1, 508, entry);
        steps.push(step.refused_at(10, 1));
        steps.push(read_span("*", 65_536, vec![0]).refused_at(10, place));
        // Block 126 is nil. Then block 127 is good again.
        steps.push(read_span("*", 65_023, vec![0; 600]).refused_at(10, 1));
        let step = read_span("*", 65_023, bytes(&[(0, 1), (7, 512)]));
        steps.push(step.after(1, 508, old));
    }
    // A descriptor, and the table blocks of layout 1; nil; the data of block 127.
    let openings = if layout == 1 { 1..3 } else { 0..0 };
    for entry in openings {
        let step = read_span("*", 65_524, vec![0; 24]).after(second, 0, entry);
        steps.push(step.refused_at(10, place));
    }
    let step = read_span("*", 65_524, bytes(&[(7, 12), (0, 12)]));
    steps.push(step.after(second, 0, 0));
    steps.push(read_span("*", 65_524, vec![7; 24]).after(second, 0, old));
    let step = read_span("*", 65_524, bytes(&[(7, 12), (8, 12)]));
    steps.push(step.after(second, 0, 4));
    steps.push(check());
    steps
}

/// Layout 2, L 200. Blocks 127 and 128 are frozen: descriptor 0, table 1, data 2, table 3, data 4;
/// then descriptor 5. A write to block 0, or to block 129, gives its group a table of the active
/// region, 6, and data 7. 12 bytes of each of the two blocks then take data alone where the table
/// is 6, and a copy of the table and data where it is not: need 3, up to block 10, and beta is N.
fn tables() -> Vec<Step> {
    let (one, other) = (bytes(&[(1, 500), (9, 12)]), bytes(&[(9, 12), (2, 500)]));
    let mut steps = vec![ream(2, 200, 1, "fs"), write(127, 1), write(128, 2)];
    steps.extend([snap("mon"), write(0, 3)]);
    steps.push(list(&[("mon", 0, 5, 5), ("fs", 5, 8, 0)]));
    steps.push(
        write_span(65_524, vec![9; 24])
            .keeps(5)
            .stores(5, descriptor([2, 200, 5, 11, 0], "fs", 1, &[6, 9]))
            .stores(6, table(&[(0, 7), (127, 8)]))
            .stores(7, vec![3; 512])
            .stores(8, one.clone())
            .stores(9, table(&[(0, 10)]))
            .stores(10, other.clone()),
    );
    steps.push(list(&[("mon", 0, 5, 5), ("fs", 5, 11, 0)]));
    steps.push(read_span("mon", 65_524, bytes(&[(1, 12), (2, 12)])));
    // The visit stays, and its region ends before block 5.
    steps.extend([revert("mon"), write(129, 3)]);
    steps.push(
        write_span(65_524, vec![9; 24])
            .keeps(5)
            .stores(5, descriptor([2, 200, 5, 11, 0], "fs", 1, &[8, 6]))
            .stores(6, table(&[(0, 10), (1, 7)]))
            .stores(7, vec![3; 512])
            .stores(8, table(&[(127, 9)]))
            .stores(9, one)
            .stores(10, other),
    );
    steps.push(list(&[("mon", 0, 5, 5), ("fs", 5, 11, 0)]));
    steps.push(read_span("*", 65_523, bytes(&[(1, 1), (9, 24), (2, 1)])));
    steps.push(read_span("mon", 65_524, bytes(&[(1, 12), (2, 12)])));
    steps.push(check());
    steps
}

/// Layout 2: faults that reads do not meet. The card is that of `block_5`, with block 130 written:
/// table 6, data 7, beta 8.
fn fails_more() -> Vec<Step> {
    let mut steps = block_5(2);
    steps.push(write(130, 4));
    let read = || read_span("*", 2_560, bytes(&[(9, 512), (0, 1)]));
    // Entry 2 of Phi, of which there are two; then entry 72 of the second table, past L.
    for (block, byte, place) in [(3, 64 + 4 * 2, 3), (6, 4 * 72, 6)] {
        steps.push(check().after(block, byte, 2).refused_at(10, place));
        steps.push(write_span(2_560, vec![1]).refused_at(10, place));
        steps.push(write_span(66_560, vec![1; 512]).refused_at(10, place));
        steps.push(write_span(0, vec![]).refused_at(10, place));
        steps.push(read());
        steps.push(read_span("*", 66_560, vec![4; 512]));
        steps.push(write_span(0, vec![]).after(block, byte, 0).keeps(16));
    }
    // Data of the active region in an old table, which the visit names no more.
    let step = check().after(0, 64, 0).after(3, 64, 1).after(1, 4 * 5, 5);
    steps.push(step.refused_at(10, 1));
    steps.push(write_span(2_560, vec![1]).refused_at(10, 1));
    steps.push(read());
    let step = write_span(2_561, vec![1]);
    steps.push(step.after(0, 64, 1).after(3, 64, 4).after(1, 4 * 5, 2));
    steps.push(read_span("*", 2_560, vec![9, 1, 9]));
    // An older descriptor's table as data: check passes, and it is read and then copied.
    let old = [table(&[(5, 2)]), vec![0]].concat();
    steps.push(read_span("*", 3_072, old).after(4, 4 * 6, 1));
    let step = write_span(3_072, vec![3]).keeps(3);
    steps.push(step.stores(8, [vec![3], table(&[(5, 2)])[1..].to_vec()].concat()));
    steps.push(list(&[("mon", 0, 3, 3), ("fs", 3, 9, 0)]));
    steps.push(check());
    steps
}

/// Layout 2. Blocks 127 and 128 are written: table 1, data 2, table 3, data 4, beta 5. Where Phi's
/// entry is not in place the place is the descriptor.
fn phi() -> Vec<Step> {
    let mut steps = vec![ream(2, 200, 0, "fs"), write(127, 7), write(128, 8)];
    let both = |first: u8, second: u8| read_span("*", 65_524, bytes(&[(first, 12), (second, 12)]));
    for entry in [5, 6, 16, 0x0100_0003, u32::MAX] {
        steps.push(both(0, 0).after(0, 68, entry).refused_at(10, 0));
        steps.push(read_span("*", 65_524, vec![7; 12]));
        steps.push(read_span("*", 65_536, vec![0]).refused_at(10, 0));
        steps.push(read_span("*", 102_399, vec![0]).refused_at(10, 0));
        steps.push(read_span("*", 65_536, vec![]));
        steps.push(write_span(0, vec![]).refused_at(10, 0));
        // The entry of block 127 too: that of the first block is met first.
        steps.push(both(0, 0).after(1, 508, entry).refused_at(10, 1));
        steps.push(write_span(0, vec![]).refused_at(10, 1));
        // Phi's first entry alone.
        let step = both(0, 0).after(1, 508, 2).after(0, 68, 3);
        steps.push(step.after(0, 64, entry).refused_at(10, 0));
        steps.push(read_span("*", 65_536, vec![8; 512]));
        steps.push(both(7, 8).after(0, 64, 1));
    }
    // Nil; then the first group's table, whose first entry is nil.
    steps.push(both(7, 0).after(0, 68, 0));
    steps.push(both(7, 0).after(0, 68, 1));
    steps.push(write_span(0, vec![]).refused_at(10, 0));
    // Data taken as a table: its bytes are no entries in place.
    steps.push(both(0, 0).after(0, 68, 4).refused_at(10, 4));
    steps.push(both(7, 8).after(0, 68, 3));
    steps.push(check());
    steps
}

/// Layout 2: descriptor 0, table 1, data 2, table 3, data 4; descriptor 5, table 6, data 7, beta 8.
/// Table 3 is the visit's, whose beta is 5, and the active store's. That block 7 is named in it is
/// against the first's beta, and in the second it is block 127's data.
fn of_visit() -> Vec<Step> {
    let mut steps = vec![ream(2, 200, 0, "fs"), write(127, 7), write(128, 8)];
    steps.extend([snap("mon"), write(127, 9)]);
    let mon = |first: u8, second: u8| read_span("mon", 65_524, bytes(&[(first, 12), (second, 12)]));
    steps.push(list(&[("mon", 0, 5, 5), ("fs", 5, 8, 0)]));
    steps.push(read_span("*", 65_524, bytes(&[(9, 12), (8, 12)])));
    steps.push(mon(7, 8));
    steps.push(read_span("*", 65_524, vec![9; 24]).after(3, 0, 7));
    steps.push(mon(0, 0).refused_at(10, 3));
    steps.push(read_span("mon", 65_524, vec![7; 12]));
    steps.push(write_span(0, vec![1]).refused_at(10, 3));
    steps.push(mon(7, 8).after(3, 0, 4));
    // Phi's entry of the visit: the place is its descriptor.
    steps.push(mon(0, 0).after(0, 68, 6).refused_at(10, 0));
    steps.push(read_span("*", 65_524, bytes(&[(9, 12), (8, 12)])));
    steps.push(mon(7, 8).after(0, 68, 3));
    steps.push(check());
    steps
}

/// The active descriptor's alpha is not its own block: 4 comes before, 7, 16 and 10 after it.
fn unsound() -> Vec<Step> {
    let mut steps = block_5(2);
    let step = read_span("mon", 2_560, vec![0]).after(3, 12, 4);
    steps.push(step.after(1, 4 * 5, 3).refused_at(6, 3));
    steps.push(read_span("*", u64::MAX, vec![0; 2]).refused_at(6, 3));
    steps.push(read_span("*", 0, vec![]).refused_at(6, 3));
    steps.push(read_span("tue", 0, vec![0]).refused_at(6, 3));
    steps.push(read_span("MON", 0, vec![0]).refused(4));
    steps.push(write_span(u64::MAX, vec![0; 2]).refused_at(6, 3));
    steps.push(write_span(0, vec![]).refused_at(6, 3));
    let step = read_span("mon", 2_560, vec![0]).after(3, 12, 3);
    steps.push(step.refused_at(10, 1));
    steps.push(write_span(0, vec![]).refused_at(10, 1));
    steps.push(write_span(0, vec![]).after(1, 4 * 5, 2).keeps(16));
    steps.push(check());
    steps
}
