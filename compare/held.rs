// Holds `replay` to a driver's answers. What a driver makes of itself is stored; drawn cases are handed to the program in batches that
// its input has room for, each batch twice, since the same call answers the same twice. The first case that differs is printed and ends
// the run.
use random::Random;
use std::collections::BTreeMap;
use std::fs::OpenOptions;
use std::io::Write;
use std::process::{exit, Command, Stdio};

// The bytes that `replay` reads, and the kinds of its cases (docs/REPLAY.md).
const INPUT: usize = 1048576;
pub const SWAPS: u64 = 1;
pub const PLANS: u64 = 2;
pub const TEXTS: u64 = 3;
pub const QUERIES: u64 = 4;
pub const SEARCHES: u64 = 5;
pub const TABLES: u64 = 6;
pub const PLAN_PARTS: u64 = 7;
pub const QUERY_CHECKS: u64 = 8;
pub const TYPES: u64 = 9;
pub const IMAGES_WRITTEN: u64 = 10;
pub const IMAGES_READ: u64 = 11;
pub const BUILDS: u64 = 12;

// Cases, each with its kind before it, and the answers to them, of whole lines.
pub type Pair = (String, String);

pub struct Held {
    driver: &'static str,
    batch: Vec<Pair>,
    bytes: usize,
    counts: BTreeMap<String, u64>,
}

// What a driver does: `made CASES ANSWERS` appends the cases that it makes and their answers to two files, `drawn SEED COUNT` holds
// `replay` to as many drawn ones.
pub fn drive(driver: &'static str, made: &Fn() -> Vec<Pair>, draw: &Fn(&mut Held, &mut Random, u64)) {
    let args: Vec<String> = ::std::env::args().collect();
    if args[1] == "drawn" {
        let count = args[3].parse().unwrap();
        let mut held = Held { driver: driver, batch: Vec::new(), bytes: 0, counts: BTreeMap::new() };
        draw(&mut held, &mut Random::of_seed(args[2].parse().unwrap()), count);
        return held.end(count);
    }
    let append = |path: &str, text: String| OpenOptions::new().append(true).open(path).unwrap().write_all(text.as_bytes()).unwrap();
    let pairs = made();
    append(&args[2], pairs.iter().map(|pair| &pair.0[..]).collect());
    append(&args[3], pairs.iter().map(|pair| &pair.1[..]).collect());
}

// A case of a kind, as `replay` reads it.
pub fn case(kind: u64, numbers: &str) -> String {
    format!("{} {}\n", kind, numbers)
}

// What `replay` writes for cases.
pub fn written(input: &str) -> String {
    let mut child = Command::new("./run_x86").arg("target/bin/replay").stdin(Stdio::piped()).stdout(Stdio::piped()).spawn().unwrap();
    child.stdin.take().unwrap().write_all(input.as_bytes()).unwrap();
    let output = child.wait_with_output().unwrap();
    assert!(output.status.success());
    String::from_utf8(output.stdout).unwrap()
}

impl Held {
    // The refusals of the answer are counted.
    pub fn add(&mut self, pair: Pair) {
        assert!(pair.0.len() < INPUT);
        if self.bytes + pair.0.len() >= INPUT {
            self.run();
        }
        for part in pair.1.split("refused ").skip(1) {
            let number: String = part.chars().take_while(|c| c.is_numeric()).collect();
            self.count(&format!("refused {:02}", number.parse::<u64>().unwrap()), 1);
        }
        self.bytes += pair.0.len();
        self.batch.push(pair);
    }

    pub fn count(&mut self, what: &str, n: usize) {
        *self.counts.entry(what.to_string()).or_insert(0) += n as u64;
    }

    fn run(&mut self) {
        let input: String = self.batch.iter().map(|c| &c.0[..]).collect();
        let answers: String = self.batch.iter().map(|c| &c.1[..]).collect();
        for _ in 0..2 {
            let output = written(&input);
            if output != answers {
                self.differs(&output);
            }
        }
        self.batch.clear();
        self.bytes = 0;
    }

    fn differs(&self, output: &str) {
        let mut rest = output;
        for &(ref case, ref answer) in &self.batch {
            if !rest.starts_with(&answer[..]) {
                let (at, line) = answer.lines().enumerate().find(|&(i, line)| rest.lines().nth(i) != Some(line)).unwrap();
                let got = rest.lines().nth(at).unwrap_or("nothing");
                println!("{} differs on the case\n{}at line {} of its answer it wrote\n{}\nand not\n{}", self.driver, case, at, got, line);
                exit(1);
            }
            rest = &rest[answer.len()..];
        }
        println!("{} wrote more than it was asked:\n{}", self.driver, rest);
        exit(1);
    }

    fn end(mut self, cases: u64) {
        self.run();
        let counts: String = self.counts.iter().map(|(what, n)| format!(", {} {}", what, n)).collect();
        println!("{}: {} drawn cases{}", self.driver, cases, counts);
    }
}
