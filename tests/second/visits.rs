//! Cases of the visit that a block dates from (document 02, W2), by hand as those of cases.rs: of
//! cards that these calls have made, and of such cards with a number put on them.

use crate::cases::{check, list, read, ream, revert, snap, visit, write, Case, Step};

/// All cases.
pub fn all() -> Vec<Case> {
    let mut cases = Vec::new();
    let mut case = |name: &str, blocks: usize, steps: Vec<Step>| {
        cases.push(Case {
            name: name.to_string(),
            blocks,
            steps,
        });
    };
    case("visit: refusals", 8, refusals());
    for layout in [1, 2] {
        let mut case = |name: &str, blocks: usize, steps: Vec<Step>| {
            case(&format!("visit, layout {layout}: {name}"), blocks, steps);
        };
        case("the first block after an opening", 8, first_block(layout));
        case("the last block below beta", 6, last_block(layout));
        case("an overwrite stays in its region", 8, overwritten(layout));
        case("nil entries and nil tables", 16, nil(layout));
        case("old data in a new table", 16, old_data(layout));
        for revision in [0, 1] {
            let name = format!("a rollback on revision {revision}");
            case(&name, 16, rolled_back(layout, revision));
            let name = format!("three visits on revision {revision}");
            case(&name, 32, three(layout, revision));
        }
        case("255 regions", 768, most(layout));
    }
    case("visit: names of every length", 8, names());
    case("visit: the last group", 8, last_group());
    case("visit: entries, layout 1", 16, entries_1());
    case("visit: entries, layout 2", 16, entries_2());
    case("visit: entries of Phi", 16, phi());
    case("visit: unsound chain", 16, unsound());
    cases
}

/// 4, 6, 7, 8, in this order. An area of zeros, or of other bytes without the mark, has no
/// descriptor at 0. The active store's own name is no snapshot's.
fn refusals() -> Vec<Step> {
    let far = u64::from(u32::MAX);
    vec![
        visit("", 0, "").refused(4),
        visit("MON", far, "").refused(4),
        visit("abcdefghijklmnopq", 0, "").refused(4),
        visit("mon", 0, "").refused(6),
        visit("*", far, "").refused(6),
        ream(2, 9, 1, "fs"),
        visit("MON", 9, "").refused(4),
        visit("mon", 9, "").refused(7),
        visit("fs", 0, "").refused(7),
        visit("*", 9, "").refused(8),
        visit("*", far, "").refused(8),
        visit("*", 8, ""),
        write(8, 1),
        snap("mon"),
        visit("mon", 9, "").refused(8),
        visit("tue", 8, "").refused(7),
        visit("fs", 8, "").refused(7),
        visit("mon", 8, "mon"),
        visit("*", 8, "mon"),
    ]
}

/// In layout 1, where c is 2, data are that block: 2, then 5. In layout 2 it is a table block; an
/// entry that names it is in place all the same.
fn first_block(layout: u64) -> Vec<Step> {
    if layout == 2 {
        return vec![
            ream(2, 1, 0, "fs"),
            write(0, 1),
            visit("*", 0, "fs").after(1, 0, 1),
            snap("a"),
            visit("*", 0, "a"),
            visit("a", 0, "a"),
        ];
    }
    vec![
        ream(1, 1, 0, "fs"),
        list(&[("fs", 0, 2, 0)]),
        write(0, 1),
        visit("*", 0, "fs"),
        snap("a"),
        list(&[("a", 0, 3, 3), ("fs", 3, 5, 0)]),
        visit("*", 0, "a"),
        write(0, 2),
        visit("*", 0, "fs"),
        visit("a", 0, "a"),
    ]
}

/// In either layout data are block 2, where beta is 3, and block 5, where beta is N.
fn last_block(layout: u64) -> Vec<Step> {
    vec![
        ream(layout, 1, 0, "fs"),
        write(0, 1),
        list(&[("fs", 0, 3, 0)]),
        visit("*", 0, "fs"),
        snap("a"),
        visit("*", 0, "a"),
        write(0, 2),
        list(&[("a", 0, 3, 3), ("fs", 3, 6, 0)]),
        visit("*", 0, "fs"),
        visit("a", 0, "a"),
    ]
}

fn overwritten(layout: u64) -> Vec<Step> {
    let first = || list(&[("fs", 0, 3, 0)]);
    let second = || list(&[("a", 0, 3, 3), ("fs", 3, 6, 0)]);
    let mut steps = vec![ream(layout, 9, 0, "fs"), write(3, 1), first()];
    steps.extend([
        visit("*", 3, "fs"),
        write(3, 2),
        first(),
        visit("*", 3, "fs"),
    ]);
    steps.extend([snap("a"), visit("*", 3, "a"), write(3, 3), second()]);
    steps.extend([
        visit("*", 3, "fs"),
        visit("a", 3, "a"),
        write(3, 4),
        second(),
    ]);
    steps.extend([visit("*", 3, "fs"), visit("a", 3, "a"), read("a", 3, 2)]);
    steps
}

/// L 200 has two groups. Blocks 4 and 5 are of the first, which is written, block 130 of the second,
/// which is not: in layout 2 it has no table.
fn nil(layout: u64) -> Vec<Step> {
    let mut steps = vec![ream(layout, 200, 0, "fs"), visit("*", 4, "")];
    steps.extend([write(3, 1), visit("*", 4, ""), visit("*", 130, "")]);
    // The table is the visit's.
    steps.extend([snap("a"), visit("*", 4, ""), visit("a", 4, "")]);
    steps.extend([visit("*", 130, ""), visit("a", 130, "")]);
    // The table is a new one with the old entries.
    steps.extend([write(5, 1), visit("*", 4, ""), visit("*", 5, "fs")]);
    steps.extend([visit("a", 5, ""), visit("*", 130, ""), read("*", 4, 0)]);
    steps
}

/// Block 4 is written before the snap alone. After the write to block 3 the active region's table
/// names both, and only block 3 has data in that region.
fn old_data(layout: u64) -> Vec<Step> {
    vec![
        ream(layout, 9, 0, "fs"),
        write(3, 1),
        write(4, 2),
        snap("a"),
        write(3, 3),
        visit("*", 3, "fs"),
        visit("*", 4, "a"),
        snap("b"),
        visit("*", 3, "b"),
        visit("*", 4, "a"),
        visit("b", 3, "b"),
        visit("b", 4, "a"),
        visit("a", 3, "a"),
    ]
}

/// On revision 0 the region of the visit is the active one again and has its name, until another
/// snap. On revision 1 it is the visit's still.
fn rolled_back(layout: u64, revision: u64) -> Vec<Step> {
    let mut steps = vec![ream(layout, 9, revision, "fs"), write(3, 1), snap("a")];
    steps.extend([write(3, 2), write(4, 2), visit("*", 3, "fs"), revert("a")]);
    if revision == 0 {
        steps.extend([visit("*", 3, "fs"), visit("a", 3, "").refused(7)]);
        steps.extend([visit("*", 4, ""), snap("b"), visit("*", 3, "b")]);
        steps.extend([visit("b", 3, "b"), write(3, 3), visit("*", 3, "fs")]);
    } else {
        steps.extend([visit("*", 3, "a"), visit("a", 3, "a"), visit("*", 4, "")]);
        steps.extend([write(3, 3), visit("*", 3, "fs"), visit("a", 3, "a")]);
        steps.extend([revert("a"), visit("*", 3, "a"), snap("b")]);
        steps.extend([visit("*", 3, "a"), visit("b", 3, "a"), visit("b", 4, "")]);
    }
    steps
}

/// Three visits, a rollback to the second, and one to the first. L 200 has two groups. In layout 1
/// c is 3, and the data are blocks 3 and 4, then 8, then 12 and 13. In layout 2 each first write to
/// a group in a region takes a table block before the data: 2 and 3, then 6, then 9 and 11.
fn three(layout: u64, revision: u64) -> Vec<Step> {
    let (ends, cost) = match layout {
        1 => ([5, 9, 14], 3),
        _ => ([4, 7, 12], 1),
    };
    let a = ("a", 0, ends[0], ends[0]);
    let b = ("b", ends[0], ends[1], ends[1]);
    let c = ("c", ends[1], ends[2], ends[2]);
    let opened = |alpha: u64| ("fs", alpha, alpha + cost, 0);
    let mut steps = vec![
        ream(layout, 200, revision, "fs"),
        visit("*", 0, ""),
        visit("*", 199, ""),
        write(5, 1),
        visit("*", 5, "fs"),
        // No entry beside it, and no table where the layout is 2.
        visit("*", 6, ""),
        visit("*", 130, ""),
        write(6, 2),
        visit("*", 6, "fs"),
        // An overwrite stays in its region.
        write(5, 3),
        visit("*", 5, "fs"),
        snap("a"),
        visit("*", 5, "a"),
        visit("*", 6, "a"),
        visit("a", 5, "a"),
        // A nil entry in an old table.
        visit("*", 7, ""),
        visit("a", 7, ""),
        visit("a", 130, ""),
        write(5, 4),
        visit("*", 5, "fs"),
        visit("a", 5, "a"),
        // The table is of the new region now, the data of the old one, or none.
        visit("*", 6, "a"),
        visit("*", 7, ""),
        snap("b"),
        visit("*", 5, "b"),
        visit("*", 6, "a"),
        visit("b", 5, "b"),
        visit("b", 6, "a"),
        write(130, 5),
        visit("*", 130, "fs"),
        visit("b", 130, ""),
        write(6, 6),
        visit("*", 6, "fs"),
        visit("*", 5, "b"),
        visit("b", 6, "a"),
        snap("c"),
        list(&[a, b, c, opened(ends[2])]),
        visit("*", 130, "c"),
        visit("*", 6, "c"),
        visit("*", 5, "b"),
        visit("c", 5, "b"),
        visit("c", 130, "c"),
        visit("a", 6, "a"),
        // Zeros are written like any other bytes: a block that reads as zeros may date from a visit.
        write(9, 0),
        visit("*", 9, "fs"),
        visit("c", 9, ""),
        revert("b"),
        visit("c", 5, "").refused(7),
        visit("*", 6, "a"),
        visit("*", 130, ""),
        visit("*", 9, ""),
        visit("a", 5, "a"),
    ];
    if revision == 0 {
        // The region of b is the active one and has its name, and that of a after the second rollback.
        let active = ("fs", ends[0], ends[1], 0);
        steps.extend([list(&[a, active]), visit("*", 5, "fs")]);
        steps.push(visit("b", 5, "").refused(7));
        steps.extend([write(5, 7), list(&[a, active]), visit("*", 5, "fs")]);
        steps.extend([snap("d"), visit("*", 5, "d"), visit("d", 5, "d")]);
        steps.extend([visit("d", 6, "a"), visit("b", 5, "").refused(7)]);
        steps.extend([revert("a"), list(&[("fs", 0, ends[0], 0)])]);
        steps.extend([visit("*", 5, "fs"), visit("*", 6, "fs")]);
        steps.extend([visit("*", 7, ""), visit("a", 5, "").refused(7)]);
    } else {
        // The visits keep their regions and their names.
        let listed = || list(&[a, b, opened(ends[1])]);
        steps.extend([listed(), visit("*", 5, "b"), visit("b", 5, "b")]);
        steps.extend([write(5, 7), visit("*", 5, "fs"), visit("b", 5, "b")]);
        steps.extend([revert("b"), listed(), visit("*", 5, "b")]);
        steps.extend([snap("d"), visit("*", 5, "b"), visit("d", 5, "b")]);
        steps.extend([visit("d", 6, "a"), write(6, 8), visit("*", 6, "fs")]);
        steps.extend([revert("a"), list(&[a, opened(ends[0])])]);
        steps.extend([visit("*", 5, "a"), visit("*", 6, "a")]);
        steps.extend([visit("*", 7, ""), visit("b", 5, "").refused(7)]);
    }
    steps.push(check());
    steps
}

/// All sixteen bytes of a name are given, and none of a longer one before it.
fn names() -> Vec<Step> {
    let (short, long) = ("f", "abcdefghijklmnop");
    let mut steps = Vec::new();
    for (active, name) in [(short, long), (long, short)] {
        steps.extend([ream(1, 9, 0, active), write(3, 3), snap(name)]);
        steps.extend([write(4, 4), visit("*", 3, name), visit("*", 4, active)]);
        steps.extend([visit(name, 3, name), visit(name, 4, "")]);
        steps.extend([revert(name), visit("*", 3, active), visit("*", 4, "")]);
    }
    steps
}

/// 255 visits, one write in the region of each and one in the active one: three blocks a region in
/// either layout, and the last block of the card is data. Of 128 logical blocks the first 127 are
/// written twice before the last write.
fn most(layout: u64) -> Vec<Step> {
    let names: Vec<String> = (0..255).map(|k| format!("s{k}")).collect();
    let mut steps = vec![ream(layout, 128, 0, "fs")];
    for (name, k) in names.iter().zip(0..) {
        steps.extend([write(k % 128, 1), snap(name)]);
    }
    steps.extend([write(127, 2), write(0, 2).refused(11)]);
    for (logical, name) in (0..127).zip(&names[128..]) {
        steps.push(visit("*", logical, name));
        // Of each of these s126 has the first write; s0 has none but its own.
        steps.push(visit("s126", logical, &names[logical as usize]));
        steps.push(visit("s0", logical, if logical == 0 { "s0" } else { "" }));
    }
    steps.push(visit("*", 127, "fs"));
    steps.push(visit("s254", 127, "s127"));
    steps.push(visit("s126", 127, ""));
    for (name, k) in names.iter().zip(0..) {
        steps.push(visit(name, k % 128, name));
    }
    // The region of s254 is active again, then that of s0.
    steps.extend([
        revert("s254"),
        visit("*", 126, "fs"),
        visit("*", 125, "s253"),
    ]);
    steps.extend([revert("s0"), visit("*", 0, "fs"), visit("*", 1, "")]);
    steps.push(check());
    steps
}

/// The greatest L: block 14,335 is the last entry of the table that the last entry of Phi names.
fn last_group() -> Vec<Step> {
    vec![
        ream(2, 14_336, 0, "fs"),
        visit("*", 14_335, ""),
        write(14_335, 1),
        visit("*", 14_335, "fs"),
        visit("*", 14_334, ""),
        snap("mon"),
        visit("*", 14_335, "mon"),
        visit("*", 14_336, "").refused(8),
        visit("mon", 14_336, "").refused(8),
    ]
}

/// L 200, c 3: descriptor 0, tables 1 and 2, data 3; then descriptor 4, tables 5 and 6, data 7 and
/// beta 8. Block 130 is entry 2 of the second table.
fn entries_1() -> Vec<Step> {
    let byte = 4 * 2;
    let mut steps = vec![ream(1, 200, 0, "fs"), write(130, 7), snap("mon")];
    steps.extend([write(130, 9), list(&[("mon", 0, 4, 4), ("fs", 4, 8, 0)])]);
    for (entry, name) in [(0, ""), (3, "mon"), (7, "fs")] {
        steps.push(visit("*", 130, name).after(6, byte, entry));
    }
    // Openings, beta, past beta, past the card.
    for entry in [1, 2, 4, 5, 6, 8, 9, 15, 16, 0x0100_0003, u32::MAX] {
        let step = visit("*", 130, "").after(6, byte, entry);
        steps.push(step.refused_at(10, 6));
        steps.push(visit("*", 129, ""));
        steps.push(visit("mon", 130, "mon"));
    }
    steps.push(visit("*", 130, "fs").after(6, byte, 7));
    for (entry, name) in [(0, ""), (3, "mon")] {
        steps.push(visit("mon", 130, name).after(2, byte, entry));
    }
    // 7 is in place for the active store, and not below beta of the visit.
    for entry in [1, 2, 4, 5, 6, 7, 8, u32::MAX] {
        let step = visit("mon", 130, "").after(2, byte, entry);
        steps.push(step.refused_at(10, 2));
        steps.push(visit("*", 130, "fs"));
    }
    steps
}

/// L 200, c 1: descriptor 0, table 1, data 2; then descriptor 3, table 4, data 5 and beta 6.
fn card_2() -> Vec<Step> {
    vec![
        ream(2, 200, 0, "fs"),
        write(5, 7),
        snap("mon"),
        write(5, 9),
        list(&[("mon", 0, 3, 3), ("fs", 3, 6, 0)]),
    ]
}

/// Entries of table blocks. One that names a table block is in place: the region that contains that
/// block is named, be it the first after the opening of an older region or of the target's own.
fn entries_2() -> Vec<Step> {
    let byte = 4 * 5;
    let mut steps = card_2();
    for (entry, name) in [(0, ""), (1, "mon"), (2, "mon"), (4, "fs"), (5, "fs")] {
        steps.push(visit("*", 5, name).after(4, byte, entry));
    }
    for entry in [3, 6, 7, 15, 16, 0x0100_0002, u32::MAX] {
        let step = visit("*", 5, "").after(4, byte, entry);
        steps.push(step.refused_at(10, 4));
        steps.push(read("*", 5, 0).refused_at(10, 4));
        steps.push(visit("*", 6, ""));
        steps.push(visit("mon", 5, "mon"));
    }
    steps.push(visit("*", 5, "fs").after(4, byte, 5));
    for (entry, name) in [(0, ""), (1, "mon"), (2, "mon")] {
        steps.push(visit("mon", 5, name).after(1, byte, entry));
    }
    // 4 and 5 are in place for the active store, and not below beta of the visit.
    for entry in [3, 4, 5, 6, u32::MAX] {
        let step = visit("mon", 5, "").after(1, byte, entry);
        steps.push(step.refused_at(10, 1));
        steps.push(visit("*", 5, "fs"));
    }
    // The older table block as data on a card that passes check.
    steps.push(visit("mon", 5, "mon").after(1, byte, 2));
    steps.push(visit("*", 6, "mon").after(4, 4 * 6, 1));
    steps.push(check());
    steps
}

/// Entries of Phi: the place is the descriptor. The table may be an old one; data taken as a table
/// have entries that are not in place, and then the place is that block.
fn phi() -> Vec<Step> {
    let byte = 64;
    let mut steps = card_2();
    for (entry, name) in [(0, ""), (1, "mon"), (4, "fs")] {
        steps.push(visit("*", 5, name).after(3, byte, entry));
        steps.push(visit("*", 6, ""));
    }
    for entry in [3, 6, 7, 15, 16, 0x0100_0001, u32::MAX] {
        let step = visit("*", 5, "").after(3, byte, entry);
        steps.push(step.refused_at(10, 3));
        // 8 comes before it; the other group and the visit do not meet it.
        steps.push(visit("*", 200, "").refused(8));
        steps.push(visit("*", 130, ""));
        steps.push(visit("mon", 5, "mon"));
    }
    for entry in [2, 5] {
        let step = visit("*", 5, "").after(3, byte, entry);
        steps.push(step.refused_at(10, u64::from(entry)));
    }
    // Both entries on the way: Phi's is met first.
    let step = visit("*", 5, "").after(3, byte, 3).after(4, 4 * 5, 3);
    steps.push(step.refused_at(10, 3));
    let step = visit("*", 5, "").after(3, byte, 4);
    steps.push(step.refused_at(10, 4));
    steps.push(visit("*", 5, "fs").after(4, 4 * 5, 5));
    for (entry, place) in [(3, 0), (4, 0), (5, 0), (2, 2)] {
        let step = visit("mon", 5, "").after(0, byte, entry);
        steps.push(step.refused_at(10, place));
        steps.push(visit("*", 5, "fs"));
    }
    steps.push(visit("mon", 5, "").after(0, byte, 0));
    steps.push(visit("mon", 5, "mon").after(0, byte, 1));
    steps.push(check());
    steps
}

/// The active descriptor's alpha is not its own block: 4 comes before, 7, 8 and 10 after it.
fn unsound() -> Vec<Step> {
    let mut steps = card_2();
    let step = visit("mon", 5, "").after(3, 12, 4).after(1, 4 * 5, 3);
    steps.push(step.refused_at(6, 3));
    steps.push(visit("*", 5, "").refused_at(6, 3));
    steps.push(visit("tue", 5, "").refused_at(6, 3));
    steps.push(visit("mon", 200, "").refused_at(6, 3));
    steps.push(visit("MON", 5, "").refused(4));
    steps.push(visit("mon", 5, "").after(3, 12, 3).refused_at(10, 1));
    steps.push(visit("mon", 5, "mon").after(1, 4 * 5, 2));
    steps.push(check());
    steps
}
