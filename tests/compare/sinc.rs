// The sinc block run of document 02's R-4: random and adversarial sequences of calls in the words of
// docs/CALLS.md, each line sent to the program `calls`, and each answer held bit for bit against the definition,
// worked out a second time (definition.rs, answers.rs). Then the crate's own sinc run beside it (beside.rs).
//
// sinc CALLS [SEED] [SEQUENCES] [BLOCKS] [LIST]
//   CALLS      the words that run the program of crates/calls, one a line; or - for none, and the definition
//              is run alone
//   SEED       a whole number, 1 if left out
//   SEQUENCES  how many random sequences, 20000 if left out; those at the ends of things come first, always
//   BLOCKS     how many blocks beside the crate's own run for each blend and number of channels, 1000 if left
//              out
//   LIST       a file: the lines of short sequences are written there, each with its answer in the next line,
//              after `:` the definition's
// sinc list LIST: the answers of a stored list, as crates/replay/stdin, beside the definition's
use std::collections::BTreeMap;
use std::io::{BufWriter, Write};
use std::time::Instant;

mod answers;
mod arguments;
mod beside;
mod definition;
mod model;
mod port;
mod random;
mod rendering;
mod sinc_lines;
mod words;
use answers::{Definition, TABLE};
use port::{cut, stop, Port};
use random::Random;

// The longest line and the longest answer of the list, in bytes.
const LONGEST: usize = 1400;
// The most samples of a table in the list.
const SHORT: usize = 80;

// The port, if there is one, and the definition beside it.
pub struct Both {
    port: Option<Port>,
    pub definition: Definition,
    // the definition's answers by word and refusal
    pub kinds: BTreeMap<String, u64>,
    pub differences: u64,
    script: Vec<String>,
    program: String,
}

impl Both {
    fn new(program: &str) -> Self {
        let port = (program != "-").then(|| Port::start(program));
        Both { port, definition: Definition::default(), kinds: BTreeMap::new(), differences: 0, script: vec![], program: program.into() }
    }

    // A new sequence: what is kept from before is written as lines.
    pub fn begin(&mut self) {
        self.script = self.definition.lines();
    }

    // One line sent to both, and the definition's answer; none after a difference, which is told with its
    // shortest script.
    pub fn ask(&mut self, line: &str) -> Option<String> {
        self.script.push(line.into());
        let ours = self.definition.answer(line).unwrap_or_else(|| stop(format!("the definition has no answer: {}", cut(line))));
        let word = line.split(' ').next().unwrap();
        let said = match ours.strip_prefix("ref ") {
            Some(rest) => format!(", refused {}", rest.split(' ').next().unwrap()),
            None if ours == "bad" => ", bad".into(),
            None => String::new(),
        };
        *self.kinds.entry(format!("{word}{said}")).or_insert(0) += 1;
        let Some(port) = self.port.as_mut() else { return Some(ours) };
        let answer = port.ask(line);
        if answer == ours {
            return Some(ours);
        }
        self.differences += 1;
        println!("DIFFERENCE {word}: port {}\n   definition {}{}\n  shortest script:", cut(&answer), cut(&ours), place(&answer, &ours));
        for l in self.shortest() {
            println!("  {}", cut(&l));
        }
        // from here on the two have other things: everything is put in again
        self.definition = Definition::default();
        first_lines(self);
        None
    }

    fn shortest(&self) -> Vec<String> {
        let mut kept = self.script.clone();
        let mut k = kept.len();
        while k > 0 {
            k -= 1;
            let mut fewer = kept.clone();
            fewer.remove(k);
            if differs(&self.program, &fewer) {
                kept = fewer;
            }
        }
        kept
    }

    fn end(self) {
        if let Some(port) = self.port {
            port.end();
        }
    }
}

// The first place where two long answers differ.
fn place(a: &str, b: &str) -> String {
    let at = a.bytes().zip(b.bytes()).position(|(x, y)| x != y).unwrap_or(a.len().min(b.len()));
    format!("\n  the first other byte is number {at}; lengths {} and {}", a.len(), b.len())
}

// Whether a fresh program answers some line of the script in another way than the definition.
fn differs(program: &str, lines: &[String]) -> bool {
    let mut port = Port::start(program);
    let mut definition = Definition::default();
    let found = lines.iter().any(|line| {
        let answer = port.ask(line);
        definition.answer(line).is_some_and(|ours| ours != answer)
    });
    port.end();
    found
}

// All three things that the program keeps, set.
fn first_lines(both: &mut Both) {
    for line in ["newsinc 3ff0000000000000 3ff0000000000000 8 3 n 8 1 in", "settable -", "setarea -"] {
        both.definition.answer(line);
        if let Some(port) = both.port.as_mut() {
            port.ask(line);
        }
    }
}

// What the sequences reached.
#[derive(Default)]
struct Reached {
    blocks: BTreeMap<String, u64>,
    frames: u64,
    muted: u64,
    several: u64,
    ramps: u64,
    fixed_input: u64,
    // outputs that are numbers and not 0
    numbers: u64,
    zeros: u64,
    // frames whose first grid point and blend place disagree, and whose fraction rounds to 1.0
    apart: u64,
    ones: u64,
    tables: BTreeMap<&'static str, u64>,
}

impl Reached {
    // An accepted block on this record, with the line and the answer.
    fn note(&mut self, record: &definition::Record, line: &str, answer: &str) {
        *self.blocks.entry(sinc_lines::name(record.kind)).or_insert(0) += 1;
        let w: Vec<&str> = line.split(' ').collect();
        let mask: u64 = w[2].parse().unwrap();
        self.frames += record.output as u64;
        self.muted += u64::from(mask.count_ones() < record.channels as u32);
        self.several += u64::from(mask.count_ones() > 1);
        self.ramps += u64::from(record.current != record.target);
        self.fixed_input += u64::from(record.fixed_input);
        for x in words::floats(answer.split(' ').nth(3).unwrap()) {
            self.numbers += u64::from(x.is_finite() && x != 0.0);
            self.zeros += u64::from(x == 0.0);
        }
        if let definition::Kind::Sinc { factor, .. } = record.kind {
            for index in record.path() {
                self.apart += u64::from(beside::apart(index, factor));
                self.ones += u64::from(index - index.floor() == 1.0);
            }
            let size = match record.kind.table().unwrap() {
                0..=64 => "up to 64 samples",
                65..=4096 => "65 to 4,096",
                4097..=65_536 => "4,097 to 65,536",
                _ => "above 65,536",
            };
            *self.tables.entry(size).or_insert(0) += 1;
        }
    }

    fn told(&self) {
        println!("accepted blocks:");
        for (kind, n) in &self.blocks {
            println!("  {n:8} {kind}");
        }
        println!("  output frames {}; samples of the output areas that are numbers other than 0 {}, zeros {}", self.frames, self.numbers, self.zeros);
        println!("  with a channel switched off {}, with several on {}, with a ramp {}, with fixed input {}", self.muted, self.several, self.ramps, self.fixed_input);
        println!("  frames whose grid point and blend place are one grid point apart {}, whose fraction is 1.0 {}", self.apart, self.ones);
        print!("  tables");
        for (size, n) in &self.tables {
            print!("; {size}: {n}");
        }
        println!();
    }
}

// One line of a sequence. The working area is asked for after a block and a reset, accepted or not.
fn step(both: &mut Both, reached: &mut Reached, kept: &mut Vec<(String, String)>, line: &str) -> bool {
    let before = both.definition.record.clone();
    let Some(answer) = both.ask(line) else { return false };
    let word = line.split(' ').next().unwrap();
    if word == "block" && answer.starts_with("ok") {
        reached.note(&before.unwrap(), line, &answer);
    }
    kept.push((line.into(), answer));
    if !["block", "reset"].contains(&word) || both.definition.area.as_ref().unwrap().len() > 20_000 {
        return true;
    }
    let Some(area) = both.ask("area") else { return false };
    kept.push(("area".into(), area));
    true
}

// One sequence; false after a difference.
fn sequence(random: &mut Random, both: &mut Both, reached: &mut Reached, short: bool, kept: &mut Vec<(String, String)>) -> bool {
    both.begin();
    let room = if short { SHORT } else { TABLE };
    for line in sinc_lines::begin(random, short, room) {
        if !step(both, reached, kept, &line) {
            return false;
        }
    }
    let record = both.definition.record.clone().unwrap();
    let area = both.definition.area.as_ref().unwrap().len();
    for line in sinc_lines::prepare(random, &record, area) {
        if !step(both, reached, kept, &line) {
            return false;
        }
    }
    for _ in 0..2 + random.below(12) {
        let record = both.definition.record.clone().unwrap();
        let table = both.definition.table.as_ref().unwrap().len();
        let line = sinc_lines::next(random, &record, table, short, room);
        if !step(both, reached, kept, &line) {
            return false;
        }
    }
    true
}

// One of the sequences at the ends of things.
fn end_sequence(both: &mut Both, reached: &mut Reached, lines: &[String], kept: &mut Vec<(String, String)>) -> bool {
    both.begin();
    lines.iter().all(|line| {
        let line = if line == "*" { sinc_lines::whole_block(both.definition.record.as_ref().unwrap()) } else { line.clone() };
        step(both, reached, kept, &line)
    })
}

// A list under way. The definition is run on what is written alone.
struct List {
    file: BufWriter<std::fs::File>,
    definition: Definition,
}

impl List {
    // The lines of a sequence, where all of them are short, and none depends on a sequence that was left out.
    fn write(&mut self, kept: &[(String, String)]) {
        let long = kept.iter().any(|(l, a)| l.len() > LONGEST || a.len() > LONGEST);
        let before = (self.definition.record.clone(), self.definition.area.clone(), self.definition.table.clone());
        if long || !kept.iter().all(|(l, a)| self.definition.answer(l).as_ref() == Some(a)) {
            (self.definition.record, self.definition.area, self.definition.table) = before;
            return;
        }
        for (line, answer) in kept {
            writeln!(self.file, "{line}\n:{answer}").unwrap_or_else(|why| stop(format!("writing the list: {why}")));
        }
    }
}

// The answers of a stored list beside the definition's: those that it can have.
fn check_list(file: &str) {
    let text = std::fs::read_to_string(file).unwrap_or_else(|why| stop(format!("{file}: {why}")));
    let mut definition = Definition::default();
    let (mut same, mut other, mut unasked) = (0, 0, 0);
    let lines: Vec<&str> = text.lines().collect();
    for pair in lines.chunks(2) {
        match definition.answer(pair[0]) {
            None => unasked += 1,
            Some(a) if a == pair[1][1..] => same += 1,
            Some(a) => {
                other += 1;
                println!("DIFFERENCE {}\n  list {}\n  definition {}", cut(pair[0]), cut(pair[1]), cut(&a));
            }
        }
    }
    println!("{file}: {same} answers are the definition's, {other} are others; {unasked} lines are leaves or depend on what is not known");
    if other > 0 {
        std::process::exit(1);
    }
}

fn main() {
    let args: Vec<String> = std::env::args().collect();
    if args.len() < 2 {
        eprintln!("usage: sinc CALLS [SEED] [SEQUENCES] [BLOCKS] [LIST]");
        std::process::exit(2);
    }
    if args[1] == "list" && args.len() == 3 {
        return check_list(&args[2]);
    }
    let number = |k: usize, other: u64| {
        args.get(k).map_or(other, |w| w.parse().unwrap_or_else(|_| stop(format!("{w} is no whole number below 2^64"))))
    };
    let (seed, sequences, blocks) = (number(2, 1), number(3, 20_000), number(4, 1000));
    let mut list = args.get(5).map(|f| List {
        file: BufWriter::new(std::fs::File::create(f).unwrap_or_else(|why| stop(format!("{f}: {why}")))),
        definition: Definition::default(),
    });
    beside::example();
    let mut both = Both::new(&args[1]);
    first_lines(&mut both);
    let mut reached = Reached::default();
    let start = Instant::now();
    let mut told = 0;
    for lines in sinc_lines::ends() {
        let mut kept = vec![];
        if let (true, Some(list)) = (end_sequence(&mut both, &mut reached, &lines, &mut kept), list.as_mut()) {
            list.write(&kept);
        }
    }
    for n in 0..sequences {
        let mut random = Random::new(seed.wrapping_mul(0x9e37_79b9_7f4a_7c15) ^ n ^ 0x5177_c000_0000);
        let mut kept = vec![];
        let whole = sequence(&mut random, &mut both, &mut reached, list.is_some(), &mut kept);
        if let (true, Some(list)) = (whole, list.as_mut()) {
            list.write(&kept);
        }
        let seconds = start.elapsed().as_secs();
        if seconds >= told + 5 {
            told = seconds;
            eprintln!("{seconds} s: sequence {} of {sequences}, {} differences", n + 1, both.differences);
        }
        if both.differences >= 10 {
            eprintln!("ten differences: stopped");
            break;
        }
    }
    println!("seed {seed}, {sequences} sequences, {} s", start.elapsed().as_secs());
    let against = if both.port.is_some() { "answers of the port with the definition's bits" } else { "answers of the definition alone, with no port" };
    println!("{against}, by kind:");
    for (kind, n) in &both.kinds {
        println!("  {kind:20} {n}");
    }
    reached.told();
    if blocks > 0 && both.differences < 10 {
        both.kinds.clear();
        beside::run(&mut both, seed, blocks);
    }
    let differences = both.differences;
    both.end();
    println!("{differences} differences");
    if differences > 0 {
        std::process::exit(1);
    }
}
