//! Sheets at the edges, each with a name. Short outputs are written out from document 01;
//! long ones are the own reader's.

use crate::tally::Tally;
use crate::{program, sheet, Count};

struct Case {
    name: String,
    input: Vec<u8>,
    expected: Vec<u8>,
}

/// Document 01's worked example, to the letter.
const EXAMPLE: &str = "\
op=ream layout=2 blocks=16 volume=200 name=fs
op=write block=5 fill=7
op=snap name=mon
op=write block=5 fill=9
op=read from=mon block=5
op=read from=* block=5
op=list
op=revert name=mon
op=read from=* block=5
op=list
";

const EXAMPLE_OUTPUT: &str = "\
answer=0 place=0
answer=0 place=0
answer=0 place=0
answer=0 place=0
answer=0 place=0 byte=7
answer=0 place=0 byte=9
answer=0 place=0
name=mon alpha=0 beta=3 next=3
name=fs alpha=3 beta=6 next=0
answer=0 place=0
answer=0 place=0 byte=7
answer=0 place=0
name=fs alpha=0 beta=3 next=0
";

const DONE: &str = "answer=0 place=0\n";

/// A ream that the short cases begin with.
const REAM: &str = "op=ream layout=2 blocks=16 volume=200 name=fs\n";

fn answer(number: u64, place: u64) -> String {
    format!("answer={number} place={place}\n")
}

/// The cases written by hand: name, sheet, output.
fn by_hand() -> Vec<(String, Vec<u8>, String)> {
    let mut cases: Vec<(String, Vec<u8>, String)> = Vec::new();
    let mut case = |name: &str, input: &[u8], output: String| {
        cases.push((name.to_string(), input.to_vec(), output));
    };
    case("example", EXAMPLE.as_bytes(), EXAMPLE_OUTPUT.to_string());
    case("empty-sheet", b"", String::new());
    case("line-feed-alone", b"\n", answer(15, 1));
    case("two-line-feeds", b"\n\n", answer(15, 1));
    case("carriage-return-alone", b"\r\n", answer(15, 1));
    case("zero-byte-alone", b"\0\n", answer(15, 1));
    case("high-byte-alone", b"\xff\n", answer(15, 1));
    case("no-line-feed-at-all", b"op=list", answer(15, 1));

    // The zero card: 4 stands before 6.
    case("zero-card-list", b"op=list\n", answer(6, 0));
    case("zero-card-check", b"op=check\n", answer(6, 0));
    case(
        "zero-card-write",
        b"op=write block=65535 fill=255\n",
        answer(6, 0),
    );
    case("zero-card-read", b"op=read from=* block=0\n", answer(6, 0));
    case(
        "zero-card-read-name",
        b"op=read from=mon block=0\n",
        answer(6, 0),
    );
    case(
        "zero-card-read-no-name",
        b"op=read from=MON block=0\n",
        answer(4, 0),
    );
    case("zero-card-snap", b"op=snap name=mon\n", answer(6, 0));
    case("zero-card-snap-no-name", b"op=snap name=\n", answer(4, 0));
    case("zero-card-revert", b"op=revert name=mon\n", answer(6, 0));

    // Single lines that follow an accepted ream, and the answer of the second line.
    let ill: &[(&str, &[u8])] = &[
        ("list-carriage-return", b"op=list\r\n"),
        ("check-carriage-return", b"op=check\r\n"),
        ("write-carriage-return", b"op=write block=1 fill=1\r\n"),
        ("read-carriage-return", b"op=read from=* block=1\r\n"),
        ("list-zero-byte", b"op=list\0\n"),
        ("write-zero-byte", b"op=write block=1\0 fill=1\n"),
        ("list-high-byte", b"op=list\xe9\n"),
        ("list-no-line-feed", b"op=list"),
        ("snap-no-line-feed", b"op=snap name=mon"),
        ("a-space-no-line-feed", b" "),
        ("empty-line", b"\n"),
        ("space-line", b" \n"),
        ("leading-space", b" op=list\n"),
        ("trailing-space", b"op=list \n"),
        ("trailing-space-after-name", b"op=snap name=mon \n"),
        ("trailing-space-after-empty-name", b"op=snap name= \n"),
        ("double-space", b"op=snap  name=mon\n"),
        ("tab", b"op=snap\tname=mon\n"),
        ("vertical-tab", b"op=snap\x0bname=mon\n"),
        ("upper-case-op", b"OP=list\n"),
        ("upper-case-word", b"op=LIST\n"),
        ("upper-case-key", b"op=snap Name=mon\n"),
        ("no-op", b"list\n"),
        ("empty-op", b"op=\n"),
        ("op-alone", b"op\n"),
        ("longer-op", b"op=lists\n"),
        ("shorter-op", b"op=lis\n"),
        ("unknown-op", b"op=clone name=mon\n"),
        ("no-line-for-visits", b"op=visit from=* block=1\n"),
        (
            "no-line-for-span-reads",
            b"op=read from=* offset=1 length=1\n",
        ),
        (
            "no-line-for-span-writes",
            b"op=write offset=1 length=1 fill=1\n",
        ),
        ("no-length-of-a-read", b"op=read from=* block=1 length=1\n"),
        (
            "no-length-of-a-write",
            b"op=write block=1 length=1 fill=1\n",
        ),
        ("extra-pair-on-list", b"op=list name=mon\n"),
        ("extra-pair-on-snap", b"op=snap name=mon name=mon\n"),
        ("missing-name", b"op=snap\n"),
        ("missing-fill", b"op=write block=1\n"),
        ("missing-block", b"op=write fill=1\n"),
        ("missing-from", b"op=read block=1\n"),
        ("other-order-write", b"op=write fill=1 block=1\n"),
        ("other-order-read", b"op=read block=1 from=*\n"),
        ("op-not-first", b"name=mon op=snap\n"),
        ("wrong-key-read", b"op=read name=mon block=1\n"),
        ("wrong-key-snap", b"op=snap from=mon\n"),
        ("key-without-equals", b"op=snap namemon\n"),
        ("two-equals-number", b"op=write block==1 fill=1\n"),
        ("fill-256", b"op=write block=1 fill=256\n"),
        ("fill-empty", b"op=write block=1 fill=\n"),
        ("fill-leading-zero", b"op=write block=1 fill=01\n"),
        ("block-65536", b"op=write block=65536 fill=1\n"),
        ("block-empty", b"op=write block= fill=1\n"),
        ("block-00", b"op=write block=00 fill=1\n"),
        ("block-plus", b"op=write block=+1 fill=1\n"),
        ("block-minus", b"op=write block=-1 fill=1\n"),
        ("block-two-to-the-32", b"op=write block=4294967296 fill=1\n"),
        (
            "block-two-to-the-64",
            b"op=write block=18446744073709551616 fill=1\n",
        ),
        (
            "block-many-digits",
            b"op=write block=100000000000000000000000000000000000001 fill=1\n",
        ),
        (
            "block-many-zeros",
            b"op=write block=000000000000000000000000000000000000001 fill=1\n",
        ),
        ("read-block-x-bad-name", b"op=read from=BAD block=x\n"),
        ("read-block-65536", b"op=read from=* block=65536\n"),
        ("read-star-number", b"op=read from=* block=*\n"),
        (
            "ream-blocks-65",
            b"op=ream layout=2 blocks=65 volume=200 name=fs\n",
        ),
        (
            "ream-blocks-65535",
            b"op=ream layout=2 blocks=65535 volume=200 name=fs\n",
        ),
        (
            "ream-blocks-65-bad-layout",
            b"op=ream layout=3 blocks=65 volume=200 name=fs\n",
        ),
        (
            "ream-layout-65536",
            b"op=ream layout=65536 blocks=6 volume=200 name=fs\n",
        ),
        (
            "ream-volume-65536",
            b"op=ream layout=2 blocks=6 volume=65536 name=fs\n",
        ),
        (
            "ream-layout-02",
            b"op=ream layout=02 blocks=6 volume=200 name=fs\n",
        ),
        (
            "ream-blocks-06",
            b"op=ream layout=2 blocks=06 volume=200 name=fs\n",
        ),
        (
            "ream-other-order",
            b"op=ream blocks=6 layout=2 volume=200 name=fs\n",
        ),
        ("ream-no-name", b"op=ream layout=2 blocks=6 volume=200\n"),
        (
            "ream-revision",
            b"op=ream layout=2 blocks=6 volume=200 revision=0 name=fs\n",
        ),
        (
            "ream-revision-last",
            b"op=ream layout=2 blocks=6 volume=200 name=fs revision=1\n",
        ),
    ];
    for (name, line) in ill {
        let mut input = REAM.as_bytes().to_vec();
        input.extend_from_slice(line);
        // Nothing after an ill-formed line is carried out.
        if line.ends_with(b"\n") {
            input.extend_from_slice(b"op=list\n");
        }
        case(name, &input, format!("{DONE}{}", answer(15, 2)));
    }
    let well: &[(&str, &[u8], &str)] = &[
        (
            "name-carriage-return",
            b"op=snap name=mon\r\n",
            "answer=4 place=0\n",
        ),
        (
            "name-zero-byte",
            b"op=snap name=mon\0\n",
            "answer=4 place=0\n",
        ),
        (
            "name-all-zero-bytes",
            b"op=snap name=\0\0\n",
            "answer=4 place=0\n",
        ),
        (
            "name-high-byte",
            b"op=snap name=m\xc3\xb6n\n",
            "answer=4 place=0\n",
        ),
        ("name-empty", b"op=snap name=\n", "answer=4 place=0\n"),
        (
            "name-of-16",
            b"op=snap name=abcdefghijklmnop\n",
            "answer=0 place=0\n",
        ),
        (
            "name-of-17",
            b"op=snap name=abcdefghijklmnopq\n",
            "answer=4 place=0\n",
        ),
        ("name-of-1", b"op=snap name=-\n", "answer=0 place=0\n"),
        (
            "name-all-kinds",
            b"op=snap name=az09.-\n",
            "answer=0 place=0\n",
        ),
        ("name-equals", b"op=snap name=a=b\n", "answer=4 place=0\n"),
        ("name-two-equals", b"op=snap name==\n", "answer=4 place=0\n"),
        (
            "name-upper-case",
            b"op=snap name=Mon\n",
            "answer=4 place=0\n",
        ),
        ("name-star", b"op=snap name=*\n", "answer=4 place=0\n"),
        ("name-tab", b"op=snap name=m\ton\n", "answer=4 place=0\n"),
        ("name-backquote", b"op=snap name=`\n", "answer=4 place=0\n"),
        ("name-brace", b"op=snap name={\n", "answer=4 place=0\n"),
        ("name-slash", b"op=snap name=/\n", "answer=4 place=0\n"),
        ("name-colon", b"op=snap name=:\n", "answer=4 place=0\n"),
        ("name-comma", b"op=snap name=,\n", "answer=4 place=0\n"),
        ("name-underscore", b"op=snap name=_\n", "answer=4 place=0\n"),
        (
            "snap-active-name",
            b"op=snap name=fs\n",
            "answer=12 place=0\n",
        ),
        (
            "revert-active-name",
            b"op=revert name=fs\n",
            "answer=7 place=0\n",
        ),
        (
            "revert-unknown",
            b"op=revert name=mon\n",
            "answer=7 place=0\n",
        ),
        ("revert-star", b"op=revert name=*\n", "answer=4 place=0\n"),
        (
            "revert-zero-byte",
            b"op=revert name=fs\0\n",
            "answer=4 place=0\n",
        ),
        (
            "read-active-name",
            b"op=read from=fs block=0\n",
            "answer=7 place=0\n",
        ),
        (
            "read-two-stars",
            b"op=read from=** block=0\n",
            "answer=4 place=0\n",
        ),
        (
            "read-empty-name",
            b"op=read from= block=0\n",
            "answer=4 place=0\n",
        ),
        (
            "read-equals-name",
            b"op=read from=a=b block=0\n",
            "answer=4 place=0\n",
        ),
        (
            "read-unknown-before-range",
            b"op=read from=mon block=200\n",
            "answer=7 place=0\n",
        ),
        (
            "read-bad-name-before-range",
            b"op=read from=MON block=200\n",
            "answer=4 place=0\n",
        ),
        (
            "read-199",
            b"op=read from=* block=199\n",
            "answer=0 place=0 byte=0\n",
        ),
        (
            "read-200",
            b"op=read from=* block=200\n",
            "answer=8 place=0\n",
        ),
        (
            "read-65535",
            b"op=read from=* block=65535\n",
            "answer=8 place=0\n",
        ),
        (
            "write-199",
            b"op=write block=199 fill=255\n",
            "answer=0 place=0\n",
        ),
        (
            "write-200",
            b"op=write block=200 fill=0\n",
            "answer=8 place=0\n",
        ),
        (
            "ream-blocks-0",
            b"op=ream layout=3 blocks=0 volume=0 name=FS\n",
            "answer=1 place=0\n",
        ),
        (
            "ream-blocks-1",
            b"op=ream layout=2 blocks=1 volume=9 name=a\n",
            "answer=1 place=0\n",
        ),
        (
            "ream-layout-0",
            b"op=ream layout=0 blocks=2 volume=0 name=FS\n",
            "answer=2 place=0\n",
        ),
        (
            "ream-layout-3",
            b"op=ream layout=3 blocks=2 volume=9 name=a\n",
            "answer=2 place=0\n",
        ),
        (
            "ream-layout-65535",
            b"op=ream layout=65535 blocks=2 volume=9 name=a\n",
            "answer=2 place=0\n",
        ),
        (
            "ream-layout-258",
            b"op=ream layout=258 blocks=2 volume=9 name=a\n",
            "answer=2 place=0\n",
        ),
        (
            "ream-volume-0",
            b"op=ream layout=2 blocks=2 volume=0 name=FS\n",
            "answer=3 place=0\n",
        ),
        (
            "ream-volume-14336",
            b"op=ream layout=2 blocks=2 volume=14336 name=a\n",
            "answer=0 place=0\n",
        ),
        (
            "ream-volume-14337",
            b"op=ream layout=2 blocks=2 volume=14337 name=a\n",
            "answer=3 place=0\n",
        ),
        (
            "ream-name-before-room",
            b"op=ream layout=1 blocks=2 volume=129 name=A\n",
            "answer=4 place=0\n",
        ),
        (
            "ream-room-short",
            b"op=ream layout=1 blocks=2 volume=129 name=a\n",
            "answer=5 place=0\n",
        ),
        (
            "ream-room-just",
            b"op=ream layout=1 blocks=3 volume=129 name=a\n",
            "answer=0 place=0\n",
        ),
        (
            "ream-empty-name",
            b"op=ream layout=1 blocks=3 volume=129 name=\n",
            "answer=4 place=0\n",
        ),
        (
            "ream-name-of-17",
            b"op=ream layout=2 blocks=3 volume=129 name=abcdefghijklmnopq\n",
            "answer=4 place=0\n",
        ),
    ];
    for (name, line, output) in well {
        let mut input = REAM.as_bytes().to_vec();
        input.extend_from_slice(line);
        case(name, &input, format!("{DONE}{output}"));
    }

    // A line of 127 bytes is of the form; one of 128 is not, whatever it says.
    for (head, tail) in [
        ("op=snap name=", ""),
        ("op=revert name=", ""),
        ("op=read from=", " block=0"),
        ("op=ream layout=1 blocks=8 volume=9 name=", ""),
    ] {
        let op = head.split(' ').next().unwrap();
        for (length, output) in [
            (127, answer(4, 0)),
            (128, answer(15, 2)),
            (129, answer(15, 2)),
        ] {
            let mut input = REAM.as_bytes().to_vec();
            let end = input.len() + length;
            input.extend_from_slice(head.as_bytes());
            input.resize(end - tail.len(), b'a');
            input.extend_from_slice(tail.as_bytes());
            input.push(b'\n');
            case(
                &format!("line-of-{length}-{op}"),
                &input,
                format!("{DONE}{output}"),
            );
        }
    }
    let mut input = vec![b'a'; 16_383];
    input.push(b'\n');
    case("one-line-of-16383", &input, answer(15, 1));
    case("no-line-feed-in-16384", &[b'a'; 16_384], answer(15, 1));

    // 2,048 lines of 8 bytes are 16,384 bytes; one byte more is too long.
    let lists = b"op=list\n".repeat(2_048);
    case("sheet-of-16384", &lists, answer(6, 0).repeat(2_048));
    for more in [&b"\n"[..], b"x", b"\0", b"op=list\n"] {
        let input = [&lists[..], more].concat();
        case(
            &format!("sheet-of-{}-{}", input.len(), more[0]),
            &input,
            answer(15, 0),
        );
    }
    case(
        "sheet-of-a-million",
        &b"op=list\n".repeat(131_072),
        answer(15, 0),
    );
    let full = "op=list\n".repeat(2_047) + "op=list";
    case(
        "sheet-of-16383-no-line-feed",
        full.as_bytes(),
        answer(6, 0).repeat(2_047) + &answer(15, 2_048),
    );
    let empty_lines = b"\n".repeat(16_384);
    case("sheet-of-16384-line-feeds", &empty_lines, answer(15, 1));
    case(
        "ill-formed-line-in-a-long-sheet",
        &b"op=check\nop=lisp\n".repeat(900),
        answer(6, 0) + &answer(15, 2),
    );

    // The card: growth over stale blocks, refused reams, names used again.
    let text = "op=ream layout=2 blocks=4 volume=1 name=fs\nop=write block=0 fill=7\n\
        op=write block=0 fill=8\nop=snap name=a\nop=snap name=b\nop=write block=0 fill=9\n\
        op=read from=a block=0\nop=list\nop=check\n";
    let output = "answer=0 place=0\nanswer=0 place=0\nanswer=0 place=0\nanswer=0 place=0\n\
        answer=11 place=0\nanswer=11 place=0\nanswer=0 place=0 byte=8\nanswer=0 place=0\n\
        name=a alpha=0 beta=3 next=3\nname=fs alpha=3 beta=4 next=0\nanswer=0 place=0\n";
    case("full-card", text.as_bytes(), output.to_string());
    let text = "op=ream layout=1 blocks=64 volume=1 name=fs\nop=write block=0 fill=7\n\
        op=ream layout=1 blocks=0 volume=1 name=x\nop=ream layout=9 blocks=2 volume=1 name=x\n\
        op=ream layout=1 blocks=2 volume=129 name=x\nop=read from=* block=0\nop=list\n\
        op=ream layout=1 blocks=2 volume=1 name=x\nop=read from=* block=0\n\
        op=write block=0 fill=1\nop=snap name=y\nop=list\n\
        op=ream layout=1 blocks=3 volume=1 name=z\nop=read from=* block=0\n\
        op=write block=0 fill=5\nop=read from=* block=0\nop=list\nop=check\n";
    let output = "answer=0 place=0\nanswer=0 place=0\nanswer=1 place=0\nanswer=2 place=0\n\
        answer=5 place=0\nanswer=0 place=0 byte=7\nanswer=0 place=0\n\
        name=fs alpha=0 beta=3 next=0\nanswer=0 place=0\nanswer=0 place=0 byte=0\n\
        answer=11 place=0\nanswer=11 place=0\nanswer=0 place=0\nname=x alpha=0 beta=2 next=0\n\
        answer=0 place=0\nanswer=0 place=0 byte=0\nanswer=0 place=0\nanswer=0 place=0 byte=5\n\
        answer=0 place=0\nname=z alpha=0 beta=3 next=0\nanswer=0 place=0\n";
    case("reams", text.as_bytes(), output.to_string());
    // A block of zeros is written like any other.
    let text = "op=ream layout=1 blocks=8 volume=128 name=fs\nop=write block=127 fill=0\nop=list\n\
        op=ream layout=2 blocks=8 volume=200 name=fs\nop=write block=199 fill=0\nop=list\n\
        op=write block=198 fill=0\nop=write block=0 fill=0\nop=list\nop=snap name=a\n\
        op=write block=0 fill=0\nop=list\n";
    let output = "answer=0 place=0\nanswer=0 place=0\nanswer=0 place=0\n\
        name=fs alpha=0 beta=3 next=0\nanswer=0 place=0\nanswer=0 place=0\nanswer=0 place=0\n\
        name=fs alpha=0 beta=3 next=0\nanswer=0 place=0\nanswer=0 place=0\nanswer=0 place=0\n\
        name=fs alpha=0 beta=6 next=0\nanswer=0 place=0\nanswer=11 place=0\nanswer=0 place=0\n\
        name=a alpha=0 beta=6 next=6\nname=fs alpha=6 beta=7 next=0\n";
    case("blocks-of-zeros", text.as_bytes(), output.to_string());
    // A new table block lies where stale bytes are; it must be all nil.
    let text = "op=ream layout=2 blocks=16 volume=200 name=fs\nop=snap name=a\n\
        op=write block=3 fill=255\nop=write block=4 fill=254\nop=revert name=a\n\
        op=write block=130 fill=1\nop=read from=* block=131\nop=read from=* block=0\n\
        op=write block=0 fill=2\nop=read from=* block=3\nop=read from=* block=4\nop=check\nop=list\n\
        op=snap name=a\nop=snap name=a\nop=revert name=a\nop=revert name=a\n";
    let output = "answer=0 place=0\nanswer=0 place=0\nanswer=0 place=0\nanswer=0 place=0\n\
        answer=0 place=0\nanswer=0 place=0\nanswer=0 place=0 byte=0\nanswer=0 place=0 byte=0\n\
        answer=0 place=0\nanswer=0 place=0 byte=0\nanswer=0 place=0 byte=0\nanswer=0 place=0\n\
        answer=0 place=0\nname=fs alpha=0 beta=5 next=0\nanswer=0 place=0\nanswer=12 place=0\n\
        answer=0 place=0\nanswer=7 place=0\n";
    case("stale-table-block", text.as_bytes(), output.to_string());
    cases
}

/// A sheet that takes 63 snapshots and then lists as often as it has room to.
fn many_lists() -> Vec<u8> {
    let mut text = b"op=ream layout=2 blocks=64 volume=14336 name=abcdefghijklmnop\n".to_vec();
    for k in 0..64 {
        text.extend_from_slice(format!("op=snap name={k:016}\n").as_bytes());
    }
    while text.len() + 8 <= sheet::MOST_INPUT {
        text.extend_from_slice(b"op=list\n");
    }
    text
}

/// The cases whose output is the own reader's.
fn by_reader() -> Vec<(String, Vec<u8>)> {
    let mut cases = vec![("many-lists".to_string(), many_lists())];
    // All values of a fill, and all logical numbers of a table and around it.
    let mut text = REAM.to_string();
    for fill in 0..256 {
        text += &format!("op=write block=7 fill={fill}\nop=read from=* block=7\n");
    }
    cases.push(("every-fill".to_string(), text.into_bytes()));
    for layout in [1, 2] {
        let mut text = format!("op=ream layout={layout} blocks=64 volume=200 name=fs\n");
        for block in 120..150 {
            text += &format!("op=write block={block} fill={block}\n");
        }
        text += "op=snap name=a\n";
        for block in 125..150 {
            text += &format!("op=write block={block} fill={}\n", block - 100);
        }
        for block in 118..152 {
            text += &format!("op=read from=a block={block}\nop=read from=* block={block}\n");
        }
        text += "op=list\nop=check\nop=revert name=a\nop=list\nop=check\n";
        for block in 118..152 {
            text += &format!("op=write block={block} fill=9\nop=read from=* block={block}\n");
        }
        cases.push((format!("around-a-table-layout-{layout}"), text.into_bytes()));
    }
    // Every card size of the desk, filled to the end by snaps and by writes.
    for layout in [1, 2] {
        let mut text = String::new();
        for blocks in 0..=64 {
            text += &format!("op=ream layout={layout} blocks={blocks} volume=128 name=fs\n");
            text += "op=write block=0 fill=1\nop=snap name=a\nop=write block=1 fill=2\nop=list\n";
        }
        cases.push((format!("every-size-layout-{layout}"), text.into_bytes()));
    }
    // Every byte as the second of a name and as the last of a line.
    for byte in 0..=255_u8 {
        let mut text = REAM.as_bytes().to_vec();
        text.extend_from_slice(b"op=snap name=a");
        text.push(byte);
        text.extend_from_slice(b"b\nop=list\nop=list");
        text.push(byte);
        text.extend_from_slice(b"\n");
        cases.push((format!("byte-{byte}"), text));
    }
    cases
}

/// Runs the program on all cases.
pub fn run(program: &str) -> Count {
    let mut cases = Vec::new();
    let mut count = Count::default();
    for (name, input, output) in by_hand() {
        let expected = output.into_bytes();
        let own = sheet::run(&input, &mut Tally::default());
        let result = if own == expected {
            Ok(())
        } else {
            Err("own reader differs".to_string())
        };
        count.case(&format!("own reader: {name}"), result);
        cases.push(Case {
            name,
            input,
            expected,
        });
    }
    for (name, input) in by_reader() {
        let expected = sheet::run(&input, &mut Tally::default());
        cases.push(Case {
            name,
            input,
            expected,
        });
    }
    for case in cases {
        let result = program::compare(program, &case.name, &case.input, &case.expected);
        count.case(&case.name, result);
    }
    count
}
