// The records of examples/records.c: session k stands at byte 700 * k of the volume, in two or three blocks.
use mantreuy::{Answer, Card, Kind, Name, Target, BLOCK_SIZE, REVISION_1};

const RECORD: usize = 700;

// Writes session k, every byte of it `fill`. Where the volume or the card is full, no byte of the card has changed.
fn write_session(card: &mut Card<Vec<u8>>, k: usize, fill: u8) -> Answer {
    match card.write_at((RECORD * k) as u64, &[fill; RECORD]) {
        Err(refusal) if matches!(refusal.kind, Kind::PastEnd | Kind::NoRoom) => {
            println!("session {k}: {refusal}");
            Ok(())
        }
        answer => answer,
    }
}

// Prints a byte of each session of the target; 0 is a session that was not written.
fn show_sessions(card: &Card<Vec<u8>>, target: Target) -> Answer {
    let mut sessions = Vec::new();
    let mut record = [0; RECORD];
    loop {
        match card.read_at(target, (RECORD * sessions.len()) as u64, &mut record) {
            Err(refusal) if refusal.kind == Kind::PastEnd => break,
            answer => answer?,
        }
        assert_eq!(record, [record[0]; RECORD]);
        sessions.push(record[0]);
    }
    match target {
        Target::Active => println!("active: {sessions:?}"),
        Target::Snapshot(name) => println!("{name}: {sessions:?}"),
    }
    Ok(())
}

fn main() -> Answer {
    let visit = Name::new("visit-tue")?;
    let mut card = Card::new(vec![0; 13 * BLOCK_SIZE]);

    // the clinic: eight blocks are 4,096 bytes, which is five records and a part of one
    card.ream(2, 8, REVISION_1, Name::new("home-17")?)?;
    write_session(&mut card, 0, 1)?;
    write_session(&mut card, 1, 2)?;
    write_session(&mut card, 2, 3)?;
    card.snap(visit)?;
    // at home; a record more than the volume has, and a change that needs two blocks where one is free
    write_session(&mut card, 3, 4)?;
    write_session(&mut card, 4, 5)?;
    write_session(&mut card, 5, 6)?;
    write_session(&mut card, 0, 9)?;
    // the desk
    show_sessions(&card, Target::Active)?;
    show_sessions(&card, Target::Snapshot(visit))?;
    card.revert(visit)?;
    println!("rolled back");
    show_sessions(&card, Target::Active)?;
    write_session(&mut card, 0, 9)?;
    show_sessions(&card, Target::Active)?;
    show_sessions(&card, Target::Snapshot(visit))
}
