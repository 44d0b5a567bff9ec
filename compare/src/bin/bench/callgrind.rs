//! Instructions, by valgrind's callgrind: this program is run under it for so many of one thing, and for more of it; one of them costs the difference,
//! divided by how many more they are. So nothing that is done once, such as filling lanes, is in it.

use std::collections::BTreeMap;
use std::process::Command;

/// What is run: the words behind `bench count` that name it, and the functions inside of which instructions are counted. A function that is called from one
/// of them and stands here too is left out, with all that it calls.
pub struct Counted<'a> {
    pub words: Vec<String>,
    pub functions: &'a [&'a str],
    /// How many are run: so many, and so many more.
    pub numbers: [usize; 2],
}

impl Counted<'_> {
    /// What callgrind says for so many, with its profile in the file named.
    fn run(&self, number: usize, profile: &str) -> String {
        let mut valgrind = Command::new("valgrind");
        valgrind.args(["--tool=callgrind", "--collect-atstart=no", "--compress-strings=no"]);
        valgrind.arg(format!("--callgrind-out-file={profile}"));
        valgrind.args(self.functions.iter().map(|function| format!("--toggle-collect={function}")));
        valgrind.arg(std::env::current_exe().expect("this program's path"));
        valgrind.arg("count").arg(number.to_string()).args(&self.words);
        let output = valgrind.output().expect("valgrind, which must be on PATH");
        let said = String::from_utf8_lossy(&output.stderr).into_owned();
        assert!(output.status.success(), "{said}");
        said
    }

    fn more(&self) -> f64 {
        (self.numbers[1] - self.numbers[0]) as f64
    }

    /// The instructions of one.
    pub fn each(&self) -> f64 {
        let [few, many] = self.numbers.map(|number| {
            let said = self.run(number, "/dev/null");
            let sum = said.lines().find_map(|line| line.split("Collected :").nth(1));
            sum.and_then(|sum| sum.trim().parse::<u64>().ok()).expect("callgrind's sum")
        });
        (many - few) as f64 / self.more()
    }

    /// The instructions of one by function. What the compiler inlined stands in its caller.
    pub fn parts(&self) -> BTreeMap<String, f64> {
        let file = std::env::temp_dir().join(format!("bench-parts-{}", std::process::id()));
        let name = file.to_str().expect("a plain path");
        let [few, many] = self.numbers.map(|number| {
            self.run(number, name);
            parts_of(&std::fs::read_to_string(&file).expect("callgrind's profile"))
        });
        std::fs::remove_file(&file).expect("callgrind's profile");
        let each = |(function, cost): (String, u64)| {
            let more = cost - few.get(&function).copied().unwrap_or(0);
            (function, more as f64 / self.more())
        };
        many.into_iter().map(each).filter(|(_, cost)| *cost >= 0.5).collect()
    }
}

/// The instructions of each function by itself, from a profile of callgrind: a cost is the last number of its line, and the line behind a `calls=` is the
/// callee's.
fn parts_of(profile: &str) -> BTreeMap<String, u64> {
    let (mut parts, mut function, mut callee) = (BTreeMap::new(), String::new(), false);
    for line in profile.lines() {
        if let Some(name) = line.strip_prefix("fn=") {
            function = name.to_string();
        } else if line.starts_with("calls=") {
            callee = true;
        } else if line.starts_with(|first: char| first.is_ascii_digit() || "+-*".contains(first)) {
            if !callee {
                let cost = line.rsplit(' ').next().and_then(|cost| cost.parse::<u64>().ok());
                *parts.entry(function.clone()).or_default() += cost.unwrap_or(0);
            }
            callee = false;
        }
    }
    parts
}
