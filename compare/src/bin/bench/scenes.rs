//! What every public call is made on: tables of 1, 8 and 64 lanes that hold 16 records each, the small halt's, and boards.
//!
//! A call is made again and again, on bytes that stay fit for it: what a take hands out is put back, a train that left joins again. Where such a second call
//! is needed, instructions are counted inside the first alone, and no time is given.

use compare::calls::{Answer, Call, Taken};
use compare::convert::{self, Converter};
use compare::halts::{self, Halt};
use compare::journal::{self, bytes, rules::Record, Desk};
use compare::layout::old::THEN;
use compare::linked::Linked;
use compare::loads::{Fill, Line, Load, Weights, DEPTH};
use compare::plans::{self, words, Depot};
use compare::rng::Rng;
use compare::sheets::{self, text, Office};
use compare::shown::Ask;
use compare::unit::Unit;
use compare::{inner, setup};

pub struct Made {
    pub label: &'static str,
    pub function: &'static str,
    /// Nothing else is called with it.
    pub alone: bool,
    pub once: Box<dyn FnMut()>,
}

fn alone(label: &'static str, function: &'static str, once: impl FnMut() + 'static) -> Made {
    Made { label, function, alone: true, once: Box::new(once) }
}

fn beside(label: &'static str, function: &'static str, once: impl FnMut() + 'static) -> Made {
    Made { label, function, alone: false, once: Box::new(once) }
}

/// Takes a record and puts it back by the call given.
fn back(table: &[u8], put: impl Fn(&mut [u8], Taken) -> Result<u64, u8> + 'static) -> impl FnMut() {
    let mut table = table.to_vec();
    move || {
        let taken = Linked.take(&mut table).expect("a record is held");
        put(&mut table, taken).expect("there is room again");
    }
}

/// The calls on the load's table, with its lanes filled; restart, and an offer that is in force at once, on one that holds nothing.
fn on_tables(load: Load) -> Vec<Made> {
    let setup = load.setup();
    let mut fresh = vec![0; Linked.table_size()];
    Linked.make(&setup, &mut fresh).expect("a valid setup");
    let (mut held, filling, last) = (fresh.clone(), load.list(0).filling, load.lanes - 1);
    inner::calls(&mut held, &filling);

    let put = |table: &mut [u8], taken: Taken| Linked.put(table, taken.lane, taken.mark, taken.length);
    let put_train = |table: &mut [u8], taken: Taken| {
        Linked.put_train(table, taken.lane, taken.train, taken.mark, taken.length)
    };
    let asked = |label, function, ask| {
        let mut table = held.clone();
        alone(label, function, move || assert!(matches!(Linked.show(&mut table, ask), Some(Ok(_)))))
    };
    let offered = |label, table: &[u8], answer| {
        let (mut table, setup, mut edition) = (table.to_vec(), setup.clone(), 0_u16);
        let length = u16::try_from(setup.len()).expect("a setup of a few hundred bytes");
        alone(label, "zf_offer", move || {
            edition += 1;
            let head = [&[0x40, 0, 2][..], &edition.to_be_bytes(), &[0x41], &length.to_be_bytes()].concat();
            let page = [&head[..], &setup, &[0x7F, 0, 0]].concat();
            assert!(Linked.offer(&mut table, &page) == answer);
        })
    };
    let copies = || (held.clone(), setup.clone());
    let mut made = Vec::new();

    let (mut table, bytes) = copies();
    made.push(alone("make", "zf_make", move || assert!(Linked.make(&bytes, &mut table).is_ok())));
    made.push(beside("put", "zf_put", back(&held, put)));
    made.push(beside("put, with a train", "zf_put_train", back(&held, put_train)));
    made.push(beside("take", "zf_take", back(&held, put)));
    let (mut table, _) = copies();
    made.push(alone("look", "zf_look", move || assert!(Linked.look(&mut table).is_ok())));
    let (mut table, _) = copies();
    made.push(alone("sets", "zf_sets", move || assert!(Linked.sets(&mut table).is_ok())));
    let (mut table, _) = copies();
    made.push(alone("lag", "zf_lag", move || assert!(Linked.lag(&mut table, last).is_ok())));
    let mut table = fresh.clone();
    made.push(alone("restart, nothing held", "zf_restart", move || {
        assert!(Linked.restart(&mut table).is_ok())
    }));
    made.push(offered("offer, nothing held", &fresh, Answer::InForce));
    made.push(offered("offer, which waits", &held, Answer::Waits));
    made.push(asked("clock", "zf_clock", Ask::Clock));
    made.push(asked("edition", "zf_edition", Ask::Edition));
    made.push(asked("lane", "zf_lane", Ask::Lane(last)));
    made.push(asked("backlog", "zf_backlog", Ask::Backlog(last)));
    made.push(asked("record", "zf_record", Ask::Record(last, DEPTH as u64 - 1)));
    made.push(asked("record, of a train", "zf_train_record", Ask::TrainRecord(last, 0, DEPTH as u64 - 1)));
    made.push(asked("wait", "zf_wait", Ask::Wait(last, DEPTH as u64)));

    let mut state = load.plain();
    state.make(&filling);
    let (mut old, (mut table, _)) = (vec![0; THEN.size], copies());
    THEN.write(&state, &mut old);
    let converted = move || assert!(convert::linked::Linked.convert(&mut old, &mut table).is_ok());
    made.push(alone("convert", "zf_convert", converted));
    made.extend(on_plans(&setup));
    made
}

/// The calls between setups, sheets and plan areas.
fn on_plans(bytes: &[u8]) -> Vec<Made> {
    let plan = setup::whole(bytes).expect("a valid setup");
    let sheet = text::write(&plan).expect("a plan that a sheet can say");
    let mut area = vec![0; words::SIZE];
    words::lay(&plan, &mut area);
    let read = (words::bytes(&plan), area.clone());
    let written = (area.clone(), vec![0; 4096]);
    let sheet_written = (area.clone(), vec![0; 4096]);
    let (input, mut place) = read;
    let setup_read = move || assert!(plans::linked::Linked.read(&input, &mut place).is_ok());
    let (source, mut buffer) = written;
    let setup_write = move || assert!(plans::linked::Linked.write(&source, &mut buffer).is_ok());
    let sheet_read = move || assert!(sheets::linked::Linked.read(&sheet, &mut area).is_ok());
    let (source, mut buffer) = sheet_written;
    let sheet_write = move || assert!(sheets::linked::Linked.write(&source, &mut buffer).is_ok());
    vec![
        alone("setup read", "zf_setup_read", setup_read),
        alone("setup written", "zf_setup_write", setup_write),
        alone("sheet read", "zf_sheet_read", sheet_read),
        alone("sheet written", "zf_sheet_write", sheet_write),
    ]
}

/// The halt's table with 16 records in each lane, by the scheduler's names and by the halt's own, in turn.
fn on_halts() -> Vec<Made> {
    let plan = setup::Setup { format: 2, framing: 0, lanes: halts::LANES.to_vec() };
    let (setup, mut fresh) = (words::bytes(&plan), vec![0; Linked.table_size()]);
    Linked.make(&setup, &mut fresh).expect("the halt's setup");
    let (mut held, mut random) = (fresh.clone(), Rng::new(7));
    for _ in 0..DEPTH {
        for lane in 0..4 {
            Linked.put(&mut held, lane, 7, random.between(64, 256)).expect("room for 64");
        }
    }
    let done = |answer: Answer| assert!(!answer.refused());
    let both = |label, names: [&'static str; 2], table: &[u8], call: Call| {
        let (mut first, mut second, other) = (table.to_vec(), table.to_vec(), call.clone());
        [
            alone(label, names[0], move || done(Linked.answer(&mut first, &call))),
            alone(label, names[1], move || done(halts::linked::Linked.answer(&mut second, &other))),
        ]
    };
    let by_halt = |table: &mut [u8], taken: Taken| {
        let put = Call::Put { lane: taken.lane, mark: taken.mark, length: taken.length };
        match halts::linked::Linked.answer(table, &put) {
            Answer::Put(ahead) => Ok(ahead),
            _ => Err(0),
        }
    };
    let put = |table: &mut [u8], taken: Taken| Linked.put(table, taken.lane, taken.mark, taken.length);
    let taking = |table: &[u8]| {
        let mut table = table.to_vec();
        move || {
            let Answer::Taken(taken) = halts::linked::Linked.answer(&mut table, &Call::Take) else {
                panic!("a record is held");
            };
            put(&mut table, taken).expect("there is room again");
        }
    };
    let (mut first, mut second) = (fresh.clone(), fresh.clone());
    let (one, two) = (setup.clone(), setup.clone());
    let mut made = vec![
        alone("make", "zf_make", move || assert!(Linked.make(&one, &mut first).is_ok())),
        alone("make", "zf_halt_make", move || assert!(halts::linked::Linked.make(&two, &mut second).is_ok())),
        beside("put", "zf_put", back(&held, put)),
        beside("put", "zf_halt_put", back(&held, by_halt)),
        beside("take", "zf_take", back(&held, put)),
        beside("take", "zf_halt_take", taking(&held)),
    ];
    made.extend(both("look", ["zf_look", "zf_halt_look"], &held, Call::Look));
    made.extend(both("sets", ["zf_sets", "zf_halt_sets"], &held, Call::Sets));
    made.extend(both("lag", ["zf_lag", "zf_halt_lag"], &held, Call::Lag { lane: 3 }));
    made.extend(both("restart, nothing held", ["zf_restart", "zf_halt_restart"], &fresh, Call::Restart));
    made
}

/// The boards: how they are called in the table, how many trains, and their numbers.
pub const BOARDS: [(&str, u32, fn(u32) -> u32); 4] = [
    ("64 in a row", 64, |line| line),
    ("64 of any number", 64, any),
    // The test of a board marks trains by the low ten bits of their number.
    ("64 of one mark", 64, |line| line << 10 | 5),
    ("8 of any number", 8, any),
];

/// A number whose low half is as if by chance; the high half is another for each line.
fn any(line: u32) -> u32 {
    let spread = (line + 1).wrapping_mul(2_654_435_761);
    (spread ^ spread >> 15).wrapping_mul(2_246_822_519) >> 16 | line << 16
}

/// The calls on a board full of trains that joined; the last one leaves and joins.
fn on_boards((_, trains, number): (&str, u32, fn(u32) -> u32)) -> Vec<Made> {
    let mut desk = journal::linked::Linked;
    let entered = move |board: &mut [u8], kind, sequence, line| {
        let field = bytes::field(Record { train: number(line), cell: 9, kind, sequence });
        journal::linked::Linked.record(board, &field).expect("a record that follows");
    };
    let mut board = vec![0; bytes::SIZE];
    desk.begin(&mut board).expect("bytes enough");
    (0..trains).for_each(|line| entered(&mut board, 1, 1, line));
    let last = trains - 1;
    let (mut begun, mut entering, mut clearing, mut shown) =
        (board.clone(), board.clone(), board.clone(), board.clone());
    let mut sequence = 1;
    vec![
        alone("begin", "zf_board_begin", move || assert!(journal::linked::Linked.begin(&mut begun).is_ok())),
        alone("record", "zf_board_record", move || {
            sequence += 1;
            entered(&mut entering, if sequence % 2 == 0 { 2 } else { 1 }, sequence, last);
        }),
        beside("clear", "zf_board_clear", move || {
            entered(&mut clearing, 2, 2, last);
            journal::linked::Linked.clear(&mut clearing, number(last)).expect("a train that left");
            entered(&mut clearing, 1, 1, last);
        }),
        alone("line", "zf_board_line", move || {
            assert!(matches!(journal::linked::Linked.line(&mut shown, last as u8), Ok(Some(_))));
        }),
    ]
}

/// The bytes that calls are made on; each is a column of a table.
pub const SCENES: [&str; 8] = ["1", "8", "64", "halt", "board0", "board1", "board2", "board3"];

pub fn scene(name: &str) -> Vec<Made> {
    let load = |lanes, weights| Load { lanes, weights, fill: Fill::Steady, shared: false };
    match SCENES.iter().position(|scene| *scene == name).expect("a scene") {
        0 => on_tables(load(1, Weights::Equal)),
        1 => on_tables(load(8, Weights::Mixed)),
        2 => on_tables(load(64, Weights::Mixed)),
        3 => on_halts(),
        board => on_boards(BOARDS[board - 4]),
    }
}

/// Makes a call so many times, for callgrind.
pub fn count(number: usize, name: &str, call: &str) {
    let mut made = scene(name).swap_remove(call.parse().expect("a call"));
    (0..number).for_each(|_| (made.once)());
}
