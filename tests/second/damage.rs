//! Cards damaged by hand: each rule for descriptors, chain and entries, with the answer and
//! the place that documents 01 and 02 give.

use crate::numbers::*;
use crate::store::{self, Logical, Target, ACCEPTED};
use crate::values::{answer, beta, formatted, list, put, read, reamed, same, write};
use crate::Count;

/// Counts all cases.
pub fn run(count: &mut Count) {
    descriptors(count);
    revisions(count);
    chains(count);
    followed(count);
    checked(count);
    damaged_writes(count);
}

/// The card that is to be damaged passes check and has this beta.
fn passes(count: &mut Count, good: &[u8], expected: u64) {
    let got = (store::check(good), beta(good));
    same(count, "a good card", got, (ACCEPTED, expected));
}

/// Every byte of a descriptor damaged, in the first and in the second one.
fn descriptors(count: &mut Count) {
    for (layout, revision) in [(1, 0), (1, 1), (2, 0), (2, 1)] {
        let mut good = formatted(layout, 9, revision, 16);
        store::snap(&mut good, b"mon");
        let second = beta(&reamed(layout, 9, 16));
        for (descriptor, byte) in (0..BLOCK).flat_map(|byte| [(0, byte), (second, byte)]) {
            let mut card = good.clone();
            card[descriptor as usize * BLOCK + byte] ^= 0x80;
            let phi = layout == 2 && byte >= PHI;
            // The first descriptor's L is then 137, which is legal, and the second one's is
            // not the same; in layout 1 its opening no longer fits its beta.
            let volume = byte == VOLUME && descriptor == 0;
            let expected = match (phi, volume && layout == 2) {
                (true, _) => ACCEPTED,
                (_, true) => answer(6, second),
                _ => answer(6, descriptor),
            };
            let card_of = format!("layout {layout}, revision {revision}");
            let name = format!("{card_of}, byte {byte} of descriptor {descriptor}");
            same(count, &name, list(&card), expected);
            if phi {
                same(count, &name, store::check(&card), answer(10, descriptor));
            }
        }
    }
    let texts: [(&[u8], bool); 6] = [
        (b"a\0b", false),
        (b"", false),
        (b"-", true),
        (b"0.-z", true),
        (b"A", false),
        (b"a b", false),
    ];
    for (text, good) in texts {
        let mut card = reamed(2, 9, 4);
        card[NAME..NAME_END].fill(0);
        card[NAME..NAME + text.len()].copy_from_slice(text);
        let expected = if good { ACCEPTED } else { answer(6, 0) };
        same(
            count,
            &format!("stored name {text:?}"),
            list(&card),
            expected,
        );
    }
    for (volume, good) in [
        (0, false),
        (1, true),
        (14_336, true),
        (14_337, false),
        (65_545, false),
    ] {
        let mut card = reamed(2, 9, 4);
        put(&mut card, 0, VOLUME, volume);
        let expected = if good { ACCEPTED } else { answer(6, 0) };
        same(count, &format!("stored L {volume}"), list(&card), expected);
    }
}

/// Bytes 40 to 63 of three descriptors: the revision is 0 or 1 and block 0's, then come zeros.
fn revisions(count: &mut Count) {
    // Layout 1: descriptors 0, 2 and 4. Layout 2: 0, 1 and 2.
    for (layout, revision, places, end) in [
        (1, 0, [0, 2, 4], 6),
        (1, 1, [0, 2, 4], 6),
        (2, 0, [0, 1, 2], 3),
        (2, 1, [0, 1, 2], 3),
    ] {
        let mut good = formatted(layout, 9, revision, 16);
        store::snap(&mut good, b"mon");
        store::snap(&mut good, b"tue");
        passes(count, &good, end);
        let card_of = format!("layout {layout}, revision {revision}");
        for place in places {
            for stored in [2, 3, 256, 257, 65_536, 1 << 24, 1 << 31, u32::MAX] {
                let mut card = good.clone();
                put(&mut card, place, REVISION, stored);
                let name = format!("{card_of}, {stored} in descriptor {place}");
                same(count, &name, list(&card), answer(6, place));
            }
            for byte in 44..64 {
                let mut card = good.clone();
                card[place as usize * BLOCK + byte] = 1;
                let name = format!("{card_of}, byte {byte} of descriptor {place} set");
                same(count, &name, list(&card), answer(6, place));
            }
        }
        // The other revision in one, two or three descriptors: the first that differs from block 0.
        let other = 1 - revision as u32;
        for (changed, fault) in [
            (&[0][..], Some(1)),
            (&[1], Some(1)),
            (&[2], Some(2)),
            (&[0, 1], Some(2)),
            (&[0, 2], Some(1)),
            (&[1, 2], Some(1)),
            (&[0, 1, 2], None),
        ] {
            let mut card = good.clone();
            for k in changed {
                put(&mut card, places[*k], REVISION, other);
            }
            let expected = fault.map_or(ACCEPTED, |k: usize| answer(6, places[k]));
            let name = format!("{card_of}, the other in descriptors {changed:?}");
            same(count, &name, list(&card), expected);
            same(count, &name, store::check(&card), expected);
        }
    }
    every_call(count);
    // A ream asks nothing of the old card.
    let mut card = formatted(2, 9, 1, 4);
    put(&mut card, 0, REVISION, 2);
    same(count, "2 in block 0", list(&card), answer(6, 0));
    let again = store::ream(&mut card, 2, 9, 1, b"fs");
    same(count, "a ream over it", again, ACCEPTED);
    same(count, "its card", card, formatted(2, 9, 1, 4));
    // A card of one descriptor has the rule that block 0 names.
    for (revision, names) in [(0, vec!["fs"]), (1, vec!["mon", "fs"])] {
        let mut card = formatted(2, 9, 1 - revision, 4);
        put(&mut card, 0, REVISION, revision as u32);
        store::snap(&mut card, b"mon");
        let said = store::revert(&mut card, b"mon");
        same(count, "revert on a changed card", said, ACCEPTED);
        let mut records = [store::NOTHING; 4];
        let filled = store::list(&card, &mut records).1;
        let names: Vec<_> = names
            .into_iter()
            .map(|n| store::padded(n.as_bytes()))
            .collect();
        let listed: Vec<_> = records[..filled].iter().map(|record| record.name).collect();
        same(count, "its visits", listed, names);
    }
}

/// Every call but ream meets the second descriptor's revision, after 4 and 9 and before the rest.
fn every_call(count: &mut Count) {
    for (revision, other) in [(0, 1), (1, 0), (0, 2), (1, 256)] {
        let mut card = formatted(2, 9, revision, 2);
        store::snap(&mut card, b"mon");
        put(&mut card, 1, REVISION, other);
        let before = card.clone();
        let mon = Target::Snapshot(b"mon".to_vec());
        let far = Logical(9);
        let calls = [
            ("list", store::list(&card, &mut []).0),
            ("check", store::check(&card)),
            ("read", store::read(&card, &mon, far, &mut [0; BLOCK])),
            ("write", store::write(&mut card, far, &[0; BLOCK])),
            ("snap", store::snap(&mut card, b"mon")),
            ("revert", store::revert(&mut card, b"mon")),
            ("revert, no visit", store::revert(&mut card, b"tue")),
            ("visit", store::visit(&card, &mon, far).0),
            (
                "span read",
                store::read_span(&card, &mon, u64::MAX, &mut [0; 2]),
            ),
            (
                "span write",
                store::write_span(&mut card, u64::MAX, &[0; 2]),
            ),
        ];
        for (name, said) in calls {
            let name = format!("{name} where {other} follows {revision}");
            same(count, &name, said, answer(6, 1));
        }
        same(
            count,
            "4 first",
            store::revert(&mut card, b""),
            answer(4, 0),
        );
        let short = store::write(&mut card, far, &[0; 511]);
        same(count, "9 first", short, answer(9, 0));
        same(count, "the card stays", card, before);
    }
}

/// Alpha, beta and next.
fn chains(count: &mut Count) {
    let base = |layout| {
        let mut card = reamed(layout, 129, 16);
        store::snap(&mut card, b"mon");
        card
    };
    // Layout 1: openings 0..3 and 3..6. Layout 2: 0..1 and 1..2.
    for (layout, second, end) in [(1, 3, 6), (2, 1, 2)] {
        let at_second = answer(6, u64::from(second));
        let cases = [
            ("beta one short", second, BETA, end - 1, at_second),
            ("beta just", second, BETA, end, ACCEPTED),
            ("beta N", second, BETA, 16, ACCEPTED),
            ("beta N + 1", second, BETA, 17, at_second),
            ("beta the largest", second, BETA, u32::MAX, at_second),
            ("alpha the largest", second, ALPHA, u32::MAX, at_second),
            ("next to itself", second, NEXT, second, at_second),
            ("next past beta", second, NEXT, end + 1, at_second),
            (
                "next at beta, zeros there",
                second,
                NEXT,
                end,
                answer(6, u64::from(end)),
            ),
            ("next of the first nil", 0, NEXT, 0, ACCEPTED),
            (
                "beta of the first past next",
                0,
                BETA,
                second + 1,
                answer(6, 0),
            ),
        ];
        for (name, block, byte, value, expected) in cases {
            let mut card = base(layout);
            put(&mut card, u64::from(block), byte, value);
            same(
                count,
                &format!("layout {layout}, {name}"),
                list(&card),
                expected,
            );
        }
        let mut card = base(layout);
        put(&mut card, u64::from(second), BETA, 16);
        put(&mut card, u64::from(second), NEXT, 16);
        same(
            count,
            &format!("layout {layout}, next = beta = N"),
            list(&card),
            at_second,
        );
        let mut card = base(layout);
        let name = card[NAME..NAME_END].to_vec();
        let at = second as usize * BLOCK;
        card[at + NAME..at + NAME_END].copy_from_slice(&name);
        same(count, "a name twice", list(&card), at_second);
    }
    // A 257th descriptor is unsound, good as it may look.
    let mut card = reamed(2, 9, 300);
    for k in 0..255 {
        store::snap(&mut card, format!("s{k}").as_bytes());
    }
    let copy = card[255 * BLOCK..256 * BLOCK].to_vec();
    card[256 * BLOCK..257 * BLOCK].copy_from_slice(&copy);
    put(&mut card, 256, ALPHA, 256);
    put(&mut card, 256, BETA, 257);
    card[255 * BLOCK + NAME] = b'q';
    same(count, "256 descriptors", list(&card), ACCEPTED);
    put(&mut card, 255, NEXT, 256);
    same(count, "257 descriptors", list(&card), answer(6, 256));
    same(
        count,
        "snap on 257 descriptors",
        store::snap(&mut card, b"new"),
        answer(6, 256),
    );
}

/// 10 in reads and writes, and its place.
fn followed(count: &mut Count) {
    // Layout 2: descriptor 0, table 1, data 2, descriptor 3, table 4, data 5.
    let mut good = reamed(2, 200, 16);
    write(&mut good, 5);
    store::snap(&mut good, b"mon");
    write(&mut good, 5);
    passes(count, &good, 6);
    let mon = Target::Snapshot(b"mon".to_vec());
    let old = |card: &[u8]| store::read(card, &mon, Logical(5), &mut [0; BLOCK]);
    let entries = [
        (0, true),
        (1, true),
        (2, true),
        (3, false),
        (4, true),
        (5, true),
        (6, false),
    ];
    for (entry, good_entry) in
        entries
            .into_iter()
            .chain([(15, false), (16, false), (u32::MAX, false)])
    {
        let mut card = good.clone();
        put(&mut card, 3, phi_byte(0), entry);
        // Blocks 2 and 5 are data: their bytes, taken as entries, are not in place.
        let expected = match (entry, good_entry) {
            (2 | 5, _) => answer(10, u64::from(entry)),
            (_, true) => ACCEPTED,
            (_, false) => answer(10, 3),
        };
        same(
            count,
            &format!("read, Phi names {entry}"),
            read(&card, 0).0,
            expected,
        );
        same(
            count,
            &format!("read of the rest, Phi names {entry}"),
            read(&card, 199).0,
            ACCEPTED,
        );
        if !good_entry {
            same(
                count,
                &format!("write, Phi names {entry}"),
                write(&mut card, 0),
                expected,
            );
            same(
                count,
                &format!("snap, Phi names {entry}"),
                store::snap(&mut card, b"a"),
                ACCEPTED,
            );
            same(
                count,
                &format!("revert, Phi names {entry}"),
                store::revert(&mut card, b"a"),
                ACCEPTED,
            );
        }
        let mut card = good.clone();
        put(&mut card, 4, entry_byte(5), entry);
        let expected = if good_entry { ACCEPTED } else { answer(10, 4) };
        same(
            count,
            &format!("read, Pi names {entry}"),
            read(&card, 5).0,
            expected,
        );
        same(
            count,
            &format!("write, Pi names {entry}"),
            write(&mut card, 5),
            expected,
        );
        let mut card = good.clone();
        put(&mut card, 1, entry_byte(5), entry);
        let expected = if entry < 3 { ACCEPTED } else { answer(10, 1) };
        same(
            count,
            &format!("old read, Pi names {entry}"),
            old(&card),
            expected,
        );
        let mut card = good.clone();
        put(&mut card, 0, phi_byte(0), entry);
        let expected = match entry {
            0 | 1 => ACCEPTED,
            2 => answer(10, 2),
            _ => answer(10, 0),
        };
        same(
            count,
            &format!("old read, Phi names {entry}"),
            old(&card),
            expected,
        );
    }
    // Layout 1, two tables: 0..3 and data 3; then 4..7 and data 7.
    let mut good = reamed(1, 200, 16);
    write(&mut good, 130);
    store::snap(&mut good, b"mon");
    write(&mut good, 130);
    passes(count, &good, 8);
    for entry in 0..17 {
        let mut card = good.clone();
        put(&mut card, 6, entry_byte(2), entry);
        let expected = if [0, 3, 7].contains(&entry) {
            ACCEPTED
        } else {
            answer(10, 6)
        };
        same(
            count,
            &format!("layout 1, read, Pi names {entry}"),
            read(&card, 130).0,
            expected,
        );
        same(
            count,
            &format!("layout 1, check, Pi names {entry}"),
            store::check(&card),
            expected,
        );
        same(
            count,
            &format!("layout 1, write, Pi names {entry}"),
            write(&mut card, 130),
            expected,
        );
    }
    // 10 before 11, 8 before 10.
    let mut card = reamed(2, 200, 3);
    write(&mut card, 5);
    put(&mut card, 1, entry_byte(6), 3);
    same(count, "10 before 11", write(&mut card, 6), answer(10, 1));
    same(count, "8 before 10", write(&mut card, 200), answer(8, 0));
    same(count, "11", write(&mut card, 7), answer(11, 0));
}

/// The rules of check.
fn checked(count: &mut Count) {
    // Layout 2, two groups: descriptor 0, table 1, data 2, table 3, data 4; then
    // descriptor 5, table 6, data 7.
    let mut good = reamed(2, 200, 16);
    write(&mut good, 5);
    write(&mut good, 130);
    store::snap(&mut good, b"mon");
    write(&mut good, 5);
    passes(count, &good, 8);
    // Name, block, byte, value, place.
    let cases: [(&str, u64, usize, u32, u64); 12] = [
        ("Phi past n", 5, phi_byte(2), 2, 5),
        ("last of Phi", 5, phi_byte(PHI_ENTRIES - 1), 4, 5),
        ("Pi past L", 3, entry_byte(72), 1, 3),
        ("last of Pi", 3, entry_byte(TABLE_ENTRIES - 1), 1, 3),
        ("data named twice", 6, entry_byte(6), 7, 6),
        ("own table named as data", 6, entry_byte(6), 6, 6),
        ("table named as data before Phi", 6, entry_byte(6), 3, 5),
        ("data named as table", 5, phi_byte(1), 7, 5),
        ("table named twice", 5, phi_byte(1), 6, 5),
        ("Pi names beta", 6, entry_byte(6), 8, 6),
        ("Pi names a descriptor", 6, entry_byte(6), 5, 6),
        ("old Pi names new data", 3, entry_byte(3), 7, 3),
    ];
    for (name, block, byte, value, place) in cases {
        let mut card = good.clone();
        put(&mut card, block, byte, value);
        same(count, name, store::check(&card), answer(10, place));
        same(count, "and list", list(&card), ACCEPTED);
    }
    // Data above alpha in an old table, which descriptor 0 names no more.
    let mut card = good.clone();
    put(&mut card, 0, phi_byte(0), 0);
    put(&mut card, 5, phi_byte(0), 1);
    put(&mut card, 1, entry_byte(5), 7);
    same(
        count,
        "data above alpha in an old table",
        store::check(&card),
        answer(10, 1),
    );
    same(
        count,
        "such data is overwritten",
        write(&mut card, 5),
        ACCEPTED,
    );
    same(count, "and nothing is taken", beta(&card), 8);
    // Entry by entry: table 6's last entry is at fault before Phi's second.
    let mut card = good.clone();
    put(&mut card, 6, entry_byte(TABLE_ENTRIES - 1), 7);
    put(&mut card, 5, phi_byte(1), 15);
    same(count, "entry by entry", store::check(&card), answer(10, 6));
    // Descriptor by descriptor.
    put(&mut card, 0, phi_byte(PHI_ENTRIES - 1), 1);
    same(
        count,
        "descriptor by descriptor",
        store::check(&card),
        answer(10, 0),
    );
    // What check does not forbid: an older descriptor's table as data.
    let mut card = good.clone();
    put(&mut card, 6, entry_byte(6), 1);
    same(count, "an old table as data", store::check(&card), ACCEPTED);
    // Block 3 is below beta and named nowhere; the table is block 1 in both layouts.
    for layout in [1, 2] {
        let mut spare = reamed(layout, 5, 16);
        write(&mut spare, 0);
        put(&mut spare, 0, BETA, 4);
        for (j, expected) in [(4, ACCEPTED), (5, answer(10, 1)), (127, answer(10, 1))] {
            let mut card = spare.clone();
            put(&mut card, 1, entry_byte(j), 3);
            let name = format!("layout {layout}, L 5, entry {j} names a spare block");
            same(count, &name, store::check(&card), expected);
        }
    }
    // Layout 1: past L, and a block named twice in two tables.
    let mut good = reamed(1, 200, 16);
    write(&mut good, 5);
    write(&mut good, 130);
    same(count, "a good card", store::check(&good), ACCEPTED);
    let mut card = good.clone();
    put(&mut card, 2, entry_byte(72), 3);
    same(
        count,
        "layout 1, past L",
        store::check(&card),
        answer(10, 2),
    );
    let mut card = good.clone();
    put(&mut card, 2, entry_byte(0), 3);
    same(
        count,
        "layout 1, named twice",
        store::check(&card),
        answer(10, 2),
    );
}

/// Writes on cards that have a chain and fail check.
fn damaged_writes(count: &mut Count) {
    let mut good = reamed(2, 200, 16);
    write(&mut good, 5);
    // The data entry names its own table: it is overwritten whole.
    let mut card = good.clone();
    put(&mut card, 1, entry_byte(5), 1);
    same(count, "own table as data", write(&mut card, 5), ACCEPTED);
    same(
        count,
        "its bytes",
        card[BLOCK..2 * BLOCK].to_vec(),
        vec![1; BLOCK],
    );
    same(
        count,
        "then no entry is in place",
        read(&card, 0).0,
        answer(10, 1),
    );
    // Both groups share a table: an entry set by one shows in the other.
    let mut card = good.clone();
    put(&mut card, 0, phi_byte(1), 1);
    same(count, "shared table", write(&mut card, 128), ACCEPTED);
    same(
        count,
        "seen by the other",
        read(&card, 0),
        (ACCEPTED, vec![1; BLOCK]),
    );
    same(count, "one block taken", beta(&card), 4);
    // A table copy takes entries past L with it.
    let mut card = reamed(2, 5, 16);
    write(&mut card, 0);
    put(&mut card, 1, entry_byte(TABLE_ENTRIES - 1), 2);
    store::snap(&mut card, b"mon");
    same(count, "copied table", write(&mut card, 0), ACCEPTED);
    same(
        count,
        "entry past L",
        card[4 * BLOCK + entry_byte(TABLE_ENTRIES - 1)],
        2,
    );
    same(count, "the frozen table stays", card[BLOCK], 2);
    same(count, "the copy has the new block", card[4 * BLOCK], 5);
}
