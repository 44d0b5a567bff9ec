//! The desk's board from Rust: two trains join, one leaves and is cleared, a third takes its line; and a record that is refused.

use zenfrosta::{Board, BoardRefusal, Handover, Kind};

fn main() -> Result<(), BoardRefusal> {
    let mut board = Board::new();
    let records = [
        Handover { train: 4711, cell: 12, kind: Kind::Joined, sequence: 100 },
        Handover { train: 815, cell: 7, kind: Kind::Joined, sequence: 0 },
        Handover { train: 4711, cell: 12, kind: Kind::Left, sequence: 101 },
    ];
    for record in records {
        println!("train {}: line {}", record.train, board.record(&record.field())?);
    }
    println!("train 4711 cleared: line {}", board.clear(4711)?);
    let next = Handover { train: 99, cell: 3, kind: Kind::Joined, sequence: 5 };
    println!("train {}: line {}", next.train, board.record(&next.field())?);
    // Train 815 joined cell 7 with sequence 0, so it cannot leave cell 8.
    let wrong = Handover { train: 815, cell: 8, kind: Kind::Left, sequence: 1 };
    match board.record(&wrong.field()) {
        Ok(line) => println!("train {}: line {line}", wrong.train),
        Err(refusal) => println!("train {}: refused with {}", wrong.train, refusal.number()),
    }
    for (line, record) in board.lines() {
        let kind = match record.kind {
            Kind::Joined => "joined",
            Kind::Left => "left",
        };
        println!(
            "line {line}: train {} {kind} cell {}, record {}",
            record.train, record.cell, record.sequence
        );
    }
    Ok(())
}
