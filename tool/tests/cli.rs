//! The tool as people run it: what it prints, where it says a fault is, and its exit status.

use std::io::Write;
use std::path::{Path, PathBuf};
use std::process::{Command, Stdio};

/// What a run printed, what it said on standard error, and its exit status.
struct Done {
    out: Vec<u8>,
    said: String,
    status: i32,
}

impl Done {
    fn text(&self) -> &str {
        std::str::from_utf8(&self.out).expect("a text")
    }
}

fn tool(words: &[&str], input: &[u8]) -> Done {
    let mut child = Command::new(env!("CARGO_BIN_EXE_zenfrosta"))
        .args(words)
        .current_dir(root())
        .stdin(Stdio::piped())
        .stdout(Stdio::piped())
        .stderr(Stdio::piped())
        .spawn()
        .expect("the tool starts");
    // A tool that reads nothing may be gone by now.
    let _ = child.stdin.take().expect("a pipe").write_all(input);
    let done = child.wait_with_output().expect("the tool ends");
    Done {
        out: done.stdout,
        said: String::from_utf8(done.stderr).expect("a text"),
        status: done.status.code().expect("an exit status"),
    }
}

/// A run that must go well and say nothing else.
fn fine(words: &[&str], input: &[u8]) -> Done {
    let done = tool(words, input);
    assert_eq!((done.status, done.said.as_str()), (0, ""), "{words:?}");
    done
}

fn refused(words: &[&str], input: &str, status: i32, says: &str) {
    let done = tool(words, input.as_bytes());
    assert_eq!(done.said.lines().next().unwrap_or_default(), says, "{words:?}");
    assert_eq!(done.status, status, "{words:?}");
}

fn root() -> PathBuf {
    Path::new(env!("CARGO_MANIFEST_DIR")).join("..")
}

/// A file for a test of its own name.
fn file(name: &str, bytes: &[u8]) -> String {
    let path = Path::new(env!("CARGO_TARGET_TMPDIR")).join(name);
    std::fs::write(&path, bytes).expect("a file");
    path.to_str().expect("a name in UTF-8").to_string()
}

/// What the file of tests/expected has.
fn expected(name: &str) -> String {
    let path = root().join("tool/tests/expected").join(name);
    std::fs::read_to_string(&path).unwrap_or_else(|error| panic!("{}: {error}", path.display()))
}

#[test]
fn what_it_prints() {
    for (name, words) in [
        ("run", &["run", "examples/session.txt"][..]),
        ("run-framed", &["run", "examples/framed.txt"]),
        ("run-plain", &["run", "--plain", "examples/session.txt"]),
        ("run-trains", &["run", "examples/junction.txt"]),
        ("plan-trains", &["plan", "examples/junction.txt", "--rate=9600", "--ahead", "2"]),
        ("hex-trains", &["session", "--hex", "examples/junction.txt"]),
        ("plan", &["plan", "examples/sheet.txt", "--rate", "9600"]),
        ("plan-framed", &["plan", "examples/framed.txt", "--ahead=3"]),
        ("hex", &["session", "--hex", "examples/session.txt"]),
        ("board", &["board", "examples/journal.txt"]),
        ("explain", &["explain", "52"]),
    ] {
        assert_eq!(fine(words, b"").text(), expected(name), "{name}");
    }
}

#[test]
fn help_and_version() {
    let help = fine(&["--help"], b"").text().to_string();
    for command in
        ["plan", "setup", "sheet", "page", "session", "run", "picture", "table", "board", "explain"]
    {
        assert!(help.contains(&format!("\n  {command} ")), "{command}");
        let own = fine(&[command, "--help"], b"").text().to_string();
        assert!(own.starts_with(&format!("zenfrosta {command} ")), "{command}");
        assert!(own.lines().chain(help.lines()).all(|line| line.len() <= 120), "{command}");
        assert_eq!(fine(&["help", command], b"").text(), own);
        let man = std::fs::read_to_string(root().join("tool/man/zenfrosta.1")).expect("the man page");
        assert!(man.contains(&format!("\n.SS {command}\n")), "{command} is not in the man page");
        // Every option of a command's help is in the man page.
        for option in own.split_whitespace().filter(|word| word.starts_with("--")) {
            let option = option.trim_matches(|letter: char| !letter.is_ascii_alphabetic());
            assert!(man.contains(&format!("\\-\\-{option}")), "{command} --{option} is not in the man page");
        }
    }
    let version = std::fs::read_to_string(root().join("VERSION")).expect("the version");
    assert_eq!(fine(&["--version"], b"").text(), format!("zenfrosta {0} (library {0})\n", version.trim()));
}

#[test]
fn sessions_to_bytes_and_back() {
    for name in ["examples/session.txt", "examples/framed.txt", "examples/junction.txt"] {
        let bytes = fine(&["session", name], b"").out;
        let text = fine(&["session"], &bytes).out;
        assert_eq!(fine(&["session", "-"], &text).out, bytes);
        assert_eq!(fine(&["run", "-"], &bytes).out, fine(&["run", name], b"").out);
    }
    // No bytes of a session: told as such where it is said.
    assert_eq!(fine(&["session", "--bytes"], b"\x20\xFF").text(), "bytes 20 FF\ncut\n");
}

#[test]
fn plans_setups_and_sheets() {
    let sheet = std::fs::read(root().join("examples/sheet.txt")).expect("a sheet");
    let setup = fine(&["setup", "examples/sheet.txt"], b"").out;
    assert_eq!(fine(&["sheet"], &setup).out, sheet);
    assert_eq!(fine(&["setup"], &setup).out, setup);
    assert_eq!(fine(&["plan"], &setup).out, fine(&["plan"], &sheet).out);
    let edits = ["sheet", "--new", "--lane", "5:64:576", "--lane=0:512:1500", "--lane", "5:65:576"];
    assert_eq!(fine(&edits, b"").text(), "0 512 1500\n5 65 576\n");
    assert_eq!(
        fine(&["sheet", "examples/sheet.txt", "--remove", "0", "--remove=63"], b"").text(),
        "1 256 576\n7 16 64\n"
    );
    let framed = fine(&["setup", "examples/sheet.txt", "--framing", "20", "--format", "1", "--hex"], b"");
    assert!(framed
        .text()
        .starts_with("01 0002 0001              # format 1\n11 0001 14                # framing 20\n"));
    let own = "the plan: refused with 82: the plan has framing bytes or a shared lane, which a sheet cannot say (take \
        the framing bytes out and let no lane be shared, or keep the plan as a setup)";
    refused(&["sheet", "examples/framed.txt"], "", 1, &format!("{own}; --framing 0 takes them out"));
    refused(&["sheet", "examples/junction.txt"], "", 1, own);
    let shared = fine(&["setup", "--new", "--lane", "5:64:576:shared", "--lane", "6:64:576", "--hex"], b"");
    assert!(shared.text().contains(
        "\n10 0005 0500400240        # lane 5 64 576\n12 0001 05                # shared 5\n10 0005 06"
    ));
    let bytes = fine(&["setup", "--new", "--lane", "5:64:576:shared"], b"").out;
    assert_eq!(fine(&["setup"], &bytes).out, bytes);
    assert_eq!(fine(&["sheet", "--lane", "5:64:576"], &bytes).text(), "5 64 576\n");
    refused(
        &["setup", "--new", "--lane", "5:64:576:both"],
        "",
        2,
        "zenfrosta: setup: --lane is '5:64:576:both', and not LANE:WEIGHT:LONGEST in numbers, as 5:64:576, with \
         :shared behind them or not ('zenfrosta setup --help' says how)",
    );
    refused(&["setup", "--new"], "", 1, "the plan: refused with 55: there is no lane");
    refused(
        &["setup", "examples/sheet.txt", "--lane", "9:1:64"],
        "",
        1,
        "the plan: refused with 55: lane 63: with its weight 240 the weights sum to 1025, and 1,024 is the most",
    );
}

#[test]
fn faults_with_line_and_column() {
    let weight = "refused with 52: a weight is not 1 to 1,024 (give the lane a weight from 1 to 1,024)";
    refused(&["plan"], "0 512 1500\n1 0 64\n", 1, &format!("standard input:2:3: {weight}"));
    refused(&["plan"], "format 1\nlane 0 0 64\n", 1, &format!("standard input:2:8: {weight}"));
    refused(&["run"], "format 1\n  lane 0 2000 64\n", 1, &format!("standard input:2:10: {weight}"));
    refused(&["picture"], "format 1\n  lane 0 2000 64\n", 1, &format!("standard input:2:10: {weight}"));
    refused(
        &["plan"],
        "\x01\0\x02\0\x01\x10\0\x03\0\0\0\x7F\0\0",
        1,
        &format!("standard input: byte 9: {weight}"),
    );
    refused(
        &["run"],
        "lane 0 5\nput 0 1\n",
        1,
        "standard input:2:8: a number is missing: 'put LANE [TRAIN] MARK LENGTH'",
    );
    refused(
        &["plan"],
        "0 512 1500",
        1,
        "standard input:1:11: refused with 81: the sheet is empty, or ends in a line (add the last line feed, or send the sheet again, whole)",
    );
    refused(&["plan"], "", 1, "standard input: it is empty: no sheet, no setup and no session");
    refused(
        &["run"],
        "lane 0 5\nbytes 99 0000\n",
        1,
        "standard input:2:7: refused with 2: a tag that is not \
        known in this part (take the field out, or move it to the part that it belongs to)",
    );
}

#[test]
fn faults_of_the_command_line() {
    refused(&[], "", 2, "zenfrosta: which command? 'zenfrosta --help' lists them");
    refused(&["plans"], "", 2, "zenfrosta: there is no command 'plans'; 'zenfrosta --help' lists them");
    let how = |command: &str| format!("('zenfrosta {command} --help' says how)");
    refused(&["plan", "--rat"], "", 2, &format!("zenfrosta: plan: there is no option --rat {}", how("plan")));
    refused(
        &["plan", "--rate"],
        "",
        2,
        &format!("zenfrosta: plan: the option --rate needs a value {}", how("plan")),
    );
    refused(
        &["run", "a", "b"],
        "",
        2,
        &format!("zenfrosta: run: one file only, and 'b' is a second {}", how("run")),
    );
    refused(
        &["run", "--limit", "1001"],
        "",
        2,
        &format!("zenfrosta: run: --limit is '1001', and not a number from 0 to 1000 {}", how("run")),
    );
    refused(
        &["board", "--serve", "--address", "0.0.0.0:80"],
        "",
        2,
        &format!("zenfrosta: board: 0.0.0.0 is no local address; 127.0.0.1 and ::1 are {}", how("board")),
    );
    refused(
        &["run", "no/such/file"],
        "",
        3,
        "zenfrosta: no/such/file: No such file or directory (os error 2)",
    );
    refused(
        &["explain", "5"],
        "",
        1,
        "zenfrosta: no call gives '5' back; 'zenfrosta explain --all' lists every number",
    );
    assert_eq!(fine(&["explain", "zf_bad_weight"], b"").out, fine(&["explain", "52"], b"").out);
}

/// A session with so many lanes that is long enough to be drawn whole.
fn busy(lanes: usize, requests: usize) -> String {
    let mut text = "format 2\nframing 12\n".to_string();
    for lane in 0..lanes {
        text += &format!("lane {lane} {} {}\n", 1 + lane % 16, [64, 576, 1500][lane % 3]);
    }
    for i in 0..requests {
        text += &if i * 7 % 5 < 3 {
            format!("put {} {i} {}\n", i * 31 % lanes, 1 + i * 17 % 64)
        } else {
            "take\n".to_string()
        };
    }
    text
}

/// The elements of an SVG with their ends matched; how many there are.
fn elements(svg: &str) -> usize {
    let mut open = Vec::new();
    let mut count = 0;
    for part in svg.split('<').skip(1) {
        let tag = part.split('>').next().expect("a tag's end");
        if let Some(name) = tag.strip_prefix('/') {
            assert_eq!(open.pop(), Some(name.to_string()));
        } else {
            count += 1;
            if !tag.ends_with('/') {
                open.push(tag.split(' ').next().expect("a name").to_string());
            }
        }
    }
    assert!(open.is_empty());
    count
}

#[test]
fn pictures() {
    let words = ["picture", "examples/session.txt", "--title", "A first session"];
    let svg = fine(&words, b"").text().to_string();
    let kept = std::fs::read_to_string(root().join("docs/session.svg")).expect("the README's picture");
    assert_eq!(svg, kept, "docs/session.svg is not what 'zenfrosta {}' draws", words.join(" "));
    assert!(elements(&svg) > 40);
    for lanes in [1, 3, 12, 64] {
        let svg = fine(&["picture"], busy(lanes, 1_400).as_bytes()).text().to_string();
        elements(&svg);
        for lane in 0..lanes {
            assert!(svg.contains(&format!(">lane {lane}</text>")), "lane {lane} of {lanes}");
        }
        assert!(!svg.contains("NaN") && !svg.contains("inf"));
    }
    let trains = fine(&["picture", "examples/junction.txt"], b"").text().to_string();
    elements(&trains);
    assert!(
        trains.contains("weight 512, shared<")
            && trains.contains("lane 0 sends record 3 of train 0, 60 bytes")
            && trains.contains(">of a train in a shared lane</text>")
            && !svg.contains("of a train in a shared lane")
    );
    // Where the width is small the legend has more rows.
    let narrow = fine(&["picture", "examples/junction.txt", "--width", "600"], b"").text().to_string();
    let clock = |svg: &str| {
        svg.find(">the clock jumps</text>")
            .map(|end| svg[..end].rsplit_once("y=\"").map(|(_, y)| y[..5].to_string()))
    };
    assert_eq!((clock(&svg), clock(&narrow)), (Some(Some("74.0\"".into())), Some(Some("128.0".into()))));
    // Nothing is sent, nothing is put, and a title that is no XML.
    for text in
        ["lane 0 5\nput 0 1 9", "lane 0 5", "lane 0 1 64\nput 0 1 64\ntake\nrestart\nput 0 1 64\nput 0 1 65"]
    {
        elements(fine(&["picture", "--title", "<&>\"\x01"], text.as_bytes()).text());
    }
    // Drawn up to the field that is refused.
    let cut = tool(&["picture"], b"lane 0 5\nput 0 1 9\ntake\ncut");
    assert_eq!((cut.status, cut.said.contains("refused with 1")), (1, true));
    elements(cut.text());
}

#[test]
fn pages() {
    let sheet = b"0 512 1500\n1 256 576\n";
    let page = fine(&["page", "--edition", "7"], sheet).out;
    assert_eq!(&page[..8], [0x40, 0, 2, 0, 7, 0x41, 0, 24]);
    let hex = fine(&["page", "--edition=7", "--hex"], sheet);
    assert!(hex.text().starts_with("40 0002 0007              # edition 7\n41 0018"), "{}", hex.text());
    assert!(hex.text().ends_with("7F 0000                   # the page's end\n"), "{}", hex.text());
    // A page is shown, and its plan goes on as one.
    let shown = fine(&["page"], &page);
    let plan = fine(&["plan"], sheet);
    assert_eq!(shown.text(), format!("a settings page of edition 7\n{}", plan.text()));
    assert_eq!(fine(&["plan"], &page).out, plan.out);
    assert_eq!(fine(&["sheet"], &page).out, sheet);
    let next = fine(&["page", "--edition", "300", "--remove", "1"], &page).out;
    assert_eq!(fine(&["sheet"], &next).out, b"0 512 1500\n");
    let none = fine(&["page"], &fine(&["page", "--edition", "0"], sheet).out);
    assert!(none.text().contains("every unit refuses it with 60"), "{}", none.text());
    let newer = [&page[..5], &[0xC0, 0, 2, 1, 2], &page[5..]].concat();
    assert!(fine(&["page"], &newer).text().contains("field C0 of 2 bytes, which units of today skip\n"));
    // Places count from the page's first byte.
    let mut wrong = page.clone();
    wrong[17] = 9;
    let done = tool(&["page"], &wrong);
    assert!(done.said.starts_with("standard input: byte 17: refused with 52: "), "{}", done.said);
    assert_eq!(done.status, 1);
    refused(
        &["page", "--edition", "65536"],
        "",
        2,
        "zenfrosta: page: --edition is '65536', and not a number from 0 to 65535 ('zenfrosta page --help' says how)",
    );
}

#[test]
fn pages_offered_to_a_table() {
    let (table, after) = (file("offer.table", b""), file("offered.table", b""));
    fine(&["run", "--table", &table, "-"], b"lane 0 512 1500\nlane 1 256 1500\nput 0 1 1000");
    let page = |edition: &str| fine(&["page", "--edition", edition], b"0 64 200\n5 128 300\n").out;
    let offer = |table: &str, edition: &str| fine(&["page", "--table", table, "-o", &after], &page(edition));
    assert_eq!(offer(&table, "7").text(), "waits until no record is held; last edition 0, edition 7 waits\n");
    let shown = fine(&["table", &after], b"");
    assert!(shown.text().contains("\nsettings pages: last edition 0, edition 7 waits\n"), "{}", shown.text());
    let old = tool(&["page", "--table", &after], &page("7"));
    assert!(
        old.said.starts_with("standard input: refused with 60: the edition is not above"),
        "{}",
        old.said
    );
    fine(&["run", "--table", &table, "-"], b"lane 0 512 1500");
    assert_eq!(offer(&table, "7").text(), "in force; last edition 7\n");
    let shown = fine(&["table", &after], b"");
    assert!(shown.text().contains("a good table of 2 lanes"), "{}", shown.text());
    let mut wrong = std::fs::read(&after).expect("the table");
    wrong[24] = 16;
    let done = tool(&["page", "--table", &file("wrong.table", &wrong)], &page("8"));
    assert!(done.said.contains("wrong.table: byte 24: the depth number is 16, and not 64"), "{}", done.said);
    let text = file("no.table", b"lane");
    let done = tool(&["page", "--table", &text], &page("8"));
    assert!(done.said.contains("4 bytes, and a table has 65,536"), "{}", done.said);
    let both = tool(&["page", "--table", &text, "--edition", "8"], b"");
    assert_eq!(both.status, 2);
}

#[test]
fn tables() {
    let path = file("kept.table", b"");
    let text =
        "format 1\nframing 7\nlane 0 512 1500\nlane 40 3 77\nput 0 1 1000\nput 40 2 77\nput 0 3 500\ntake";
    fine(&["run", "--table", &path, "-"], text.as_bytes());
    assert_eq!(fine(&["table", &path, "--order"], b"").text(), expected("table"));
    let shared = file("shared.table", b"");
    let text = "format 1\nlane 0 512 100\nshared 0\nlane 1 16 64\nshared 1\nlane 2 16 64\n\
        put 0 5 1 100\nput 0 5 2 100\nput 0 2 3 60\nput 0 4 10\nput 2 5 64\ntake";
    fine(&["run", "--table", &shared, "-"], text.as_bytes());
    assert_eq!(fine(&["table", &shared, "--order"], b"").text(), expected("table-trains"));
    let mut table = std::fs::read(&path).expect("the table");
    table[8] ^= 4;
    let done = tool(&["table"], &table);
    let said: Vec<&str> = done.said.lines().collect();
    assert_eq!(said[0].split(" (").next(), Some("standard input: refused with 10: the table is not good"));
    assert_eq!(said[1..], ["standard input: byte 704: lane 2: the weight 0 is not 1 to 1,024"]);
    assert_eq!(done.status, 1);
    let short = tool(&["table"], &table[..zenfrosta::OLD_TABLE_SIZE - 1]);
    assert!(short.said.contains("too short"), "{}", short.said);
    // One lane of weight 1,024, whose lag no framing bytes change: the table tells them.
    fine(&["run", "--table", &path, "-"], b"framing 9\nlane 3 1024 64\nput 3 1 64");
    let one = fine(&["table", &path], b"");
    assert!(
        one.text().starts_with("65,536 bytes: a good table of 1 lane, 9 framing bytes\n"),
        "{}",
        one.text()
    );
    assert!(
        one.text().contains("\n   3   1,024       64  1,024     17    0     1     64  1/64\n"),
        "{}",
        one.text()
    );
}

#[test]
fn boards() {
    let done = tool(
        &["board"],
        b"join 1 2 3\n\nleave 1 9 4 # wrong cell\nclear 1\nenter 5\njoin 1 70000 4\nleave 1 2 4",
    );
    assert_eq!(done.status, 1);
    let said: Vec<&str> = done.said.lines().map(|line| line.split(" (").next().unwrap_or_default()).collect();
    assert_eq!(
        said,
        [
            "standard input:3:1: train 1: refused with 33: the cell or the kind does not follow the train's last record",
            "standard input:4:1: clear of train 1: refused with 34: the train is not on the board, or it has not left its cell",
            "standard input:5:1: no line of a journal: 'join TRAIN CELL SEQUENCE', 'leave TRAIN CELL SEQUENCE' or 'clear TRAIN'",
            "standard input:6:8: the cell is '70000', and not a number from 0 to 65535",
        ]
    );
    assert!(done.text().ends_with("   0      1  left     2       4\n63 lines free, 2 entered, 4 refused\n"));
    // The same as fields, with one of another tag between, and one that is cut.
    let field = |kind: u8, sequence: u8| [0x30, 0, 11, 0, 0, 0, 1, 0, 2, kind, 0, 0, 0, sequence];
    let journal = [&field(1, 3)[..], b"\x31\0\x01\0", &field(2, 4), &field(1, 5)[..9]].concat();
    let done = tool(&["board"], &journal);
    assert!(done.text().contains("   0      1  left     2       4\n"));
    assert!(done.said.contains("standard input: byte 14: refused with 2"), "{}", done.said);
    assert!(done.said.contains("standard input: byte 32: refused with 1"), "{}", done.said);
}

/// A table of 16 places in a lane, as docs/TABLE.md had it before: lanes 0 and 1 of weight 512 and longest 1,500, idle.
fn old_table() -> Vec<u8> {
    let mut table = vec![0; zenfrosta::OLD_TABLE_SIZE];
    for (word, value) in [(1, 3), (80, 0x0008_0016_0200_05DC_u64), (84, 0x0008_0016_0200_05DC)] {
        table[8 * word..8 * word + 8].copy_from_slice(&value.to_le_bytes());
    }
    table
}

#[test]
fn tables_from_before() {
    let path = file("converted.table", b"");
    let shown = fine(&["table", "--converted", &path], &old_table());
    let (first, rest) = shown.text().split_once('\n').expect("lines");
    assert_eq!(first, "converted from a table of 45,056 bytes with 16 places in a lane");
    assert_eq!(fine(&["table", &path], b"").text(), rest);
    let mut wrong = old_table();
    wrong[8] = 7;
    let done = tool(&["table"], &wrong);
    assert_eq!(
        (done.status, done.said.contains("45,056 bytes, as of a table of 16 places: refused with 10")),
        (1, true),
        "{}",
        done.said
    );
    assert!(
        done.said.ends_with("\nstandard input: byte 704: lane 2: the weight 0 is not 1 to 1,024\n"),
        "{}",
        done.said
    );
    let today = std::fs::read(&path).expect("the table");
    assert_eq!(tool(&["table", "--converted", &path], &today).status, 1);
}

/// The list of numbers is that of docs/REFUSALS.md and docs/DESK.md, SHEETS.md.
#[test]
fn every_number_is_in_the_docs() {
    let docs: String = ["REFUSALS.md", "DESK.md", "SHEETS.md"]
        .iter()
        .map(|name| std::fs::read_to_string(root().join("docs").join(name)).expect("a page"))
        .collect();
    for kind in zenfrosta::RefusalKind::ALL {
        assert!(docs.contains(&format!("\n| {} | ", kind.number())), "{} has no row", kind.number());
    }
}
