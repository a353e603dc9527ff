use mantreuy::{Card, Name, Refusal, Target, BLOCK_SIZE, REVISION_0};

fn main() -> Result<(), Refusal> {
    let mut area = [0; 16 * BLOCK_SIZE];
    let mut block = [0; BLOCK_SIZE];
    let mon = Name::new("mon")?;

    let mut card = Card::new(&mut area);
    card.ream(2, 200, REVISION_0, Name::new("fs")?)?;
    card.write(5, &[7; BLOCK_SIZE])?;
    card.snap(mon)?;
    card.write(5, &[9; BLOCK_SIZE])?;
    card.read(Target::Snapshot(mon), 5, &mut block)?;
    println!("mon: {}", block[0]);
    for r in card.list()? {
        println!("{}: blocks {} to {}", r.name, r.alpha, r.beta - 1);
    }
    card.revert(mon)?;

    // a card that is only read
    let card = Card::new(&area);
    card.check()?;
    card.read(Target::Active, 5, &mut block)?;
    println!("active: {}", block[0]);
    if let Err(refusal) = card.read(Target::Snapshot(mon), 5, &mut block) {
        println!("{refusal}");
    }
    Ok(())
}
