// The tables of document 02's R-3: the words `sincs`, `window`, `cosine` and `sine` of docs/CALLS.md, sent to
// the program `calls`, and each answer held against three things.
//
// The crate: its own make_sincs and make_window. Every entry must be within 2^-18 of the largest entry of that
// table. The crate takes the cutoff as an f32, so the cutoffs are f32 values, but for some that are for the
// port alone. It has no cosine: the machine's cosine and sine are taken, of the angle (k modulo 4096)*pi/2048.
// The remainder is exact, so the angle is as good for a large k as for a small one.
//
// The definitions, worked out a second time (rendering.rs): the same bits.
//
// The refusals: `ref 11` just where document 02 says so.
//
// tables CALLS [SEED] [TABLES]
//   CALLS   the words that run the program of crates/calls, one a line
//   SEED    a whole number, 1 if left out
//   TABLES  how many random tables, 2000 if left out; those at the ends of things come first, always
use rubato::{calculate_cutoff, Async};
use std::collections::BTreeMap;
use std::time::Instant;

mod arguments;
mod port;
mod random;
mod rendering;
mod words;
use arguments::{any_cutoff, any_size, any_steps, cutoff, shape, size, steps, wrapping, Cutoff, LARGEST, LIMIT};
use port::{cut, stop, Port};
use random::Random;
use rendering::Wave;
use words::{area, floats, hex};

const WINDOWS: [&str; 6] = ["bh", "bh2", "b", "b2", "h", "h2"];
// what document 02 allows, as a share of the table's largest entry
const ALLOWED: f64 = 1.0 / (1 << 18) as f64;
// of the differences of one kind so many are told; all are counted
const TOLD: u64 = 3;

// A cosine is allowed what a straight line between two steps is off, (pi/2048)^2/8, the rounding of the entries
// and that of the doubles.
fn line_allowed() -> f64 {
    let step = std::f64::consts::PI / 2048.0;
    step * step / 8.0 + 1.0 / (1u64 << 31) as f64 + 1e-14
}

// A share of the sine's own size, for k up to 1: what the line is off there, (pi/2048)^2/6, and the rounding of
// the one entry that counts, which is 1,647,099.
fn share_allowed() -> f64 {
    let step = std::f64::consts::PI / 2048.0;
    step * step / 6.0 + 0.5 / 1_647_099.0 + 1e-10
}

// As a power of two.
fn power(x: f64) -> String {
    if x == 0.0 {
        "0".into()
    } else {
        format!("2^{:.2}", x.log2())
    }
}

// The largest of what was measured, with its line.
#[derive(Default)]
struct Worst {
    number: u64,
    entries: u64,
    off: f64,
    at: String,
}

impl Worst {
    fn note(&mut self, off: f64, at: impl FnOnce() -> String) {
        if off > self.off {
            self.off = off;
            self.at = at();
        }
    }
}

struct Tables {
    port: Port,
    wave: Wave,
    // against the crate or the machine: the share of the largest entry by window, the windows, the cosines
    sincs: BTreeMap<&'static str, Worst>,
    windows: Worst,
    cosines: Worst,
    sines: Worst,
    small_sines: Worst,
    // entries and values with the definitions' bits, by word
    same: BTreeMap<&'static str, (u64, u64)>,
    kinds: BTreeMap<&'static str, u64>,
    refused: u64,
    taken: u64,
    differences: BTreeMap<&'static str, u64>,
}

impl Tables {
    fn differ(&mut self, kind: &'static str, why: String) {
        let n = self.differences.entry(kind).or_insert(0);
        *n += 1;
        if *n <= TOLD {
            println!("DIFFERENCE from {kind}: {why}");
        }
    }

    // The port's samples, where it gives so many of them.
    fn samples(&mut self, line: &str, count: usize) -> Option<(String, Vec<f64>)> {
        let answer = self.port.ask(line);
        let digits = answer.strip_prefix("ok ").unwrap_or("");
        if digits.len() != 16 * count || !digits.bytes().all(|b| b.is_ascii_digit() || (b'a'..=b'f').contains(&b)) {
            self.differ("the form of an answer", format!("{line}: {}, and not {count} samples", cut(&answer)));
            return None;
        }
        Some((digits.into(), floats(digits)))
    }

    // The same bits as the definitions, worked out here.
    fn rendered(&mut self, word: &'static str, line: &str, digits: &str, ours: &[f64]) {
        let n = self.same.entry(word).or_insert((0, 0));
        n.0 += 1;
        n.1 += ours.len() as u64;
        if digits != area(ours) {
            let k = (0..ours.len()).find(|k| digits[16 * k..16 * k + 16] != hex(ours[*k])).unwrap();
            self.differ("the definitions", format!("{line}: place {k}: port {}, rendering {}", &digits[16 * k..16 * k + 16], hex(ours[k])));
        }
    }

    // One table. Without an f32 the cutoff is a double that the crate cannot be given.
    fn table(&mut self, points: usize, factor: usize, cutoff: Cutoff, name: &'static str) {
        let total = points * factor;
        let line = format!("sincs {points} {factor} {} {name}", hex(cutoff.double()));
        let Some((digits, port)) = self.samples(&line, total) else { return };
        let ours = self.wave.sincs(points, factor, cutoff.double(), name);
        self.rendered("sincs", &line, &digits, &ours);
        self.count(points, factor, &cutoff);
        let Cutoff::Single(single) = cutoff else { return };
        let theirs: Vec<f64> = Async::sincs(points, factor, single, words::window(name)).concat();
        let largest = theirs.iter().fold(0.0, |m: f64, y| m.max(y.abs()));
        let (off, k) = farthest(&port, &theirs);
        let share = off / largest;
        let worst = self.sincs.entry(name).or_default();
        worst.number += 1;
        worst.entries += total as u64;
        worst.note(share, || format!("{line}, row {} place {}", k / points, k % points));
        if !(share <= ALLOWED) {
            self.differ("the crate", format!("{line}: row {} place {}: {} of the largest entry", k / points, k % points, power(share)));
        }
    }

    fn count(&mut self, points: usize, factor: usize, cutoff: &Cutoff) {
        let total = points * factor;
        let single = matches!(cutoff, Cutoff::Single(_));
        let cutoff = cutoff.double();
        let kinds = [
            ("of 65,536 entries", total == LARGEST),
            ("of one row", factor == 1),
            ("of one point a row", points == 1),
            ("of an odd number of entries", total % 2 == 1),
            ("of points and factor that are powers of two", points.is_power_of_two() && factor.is_power_of_two()),
            ("with a cutoff of 1", cutoff == 1.0),
            ("with a cutoff below 2^-27", cutoff < f64::powi(2.0, -27)),
            ("with a cutoff below the least normal f32", cutoff < f32::MIN_POSITIVE as f64),
            ("with any double as cutoff, for the port alone", !single),
        ];
        for (kind, is) in kinds {
            *self.kinds.entry(kind).or_insert(0) += u64::from(is);
        }
    }

    fn window(&mut self, n: usize, name: &'static str) {
        let line = format!("window {n} {name}");
        let Some((digits, port)) = self.samples(&line, n) else { return };
        let ours = self.wave.window(n, name);
        self.rendered("window", &line, &digits, &ours);
        let theirs = Async::window(n, words::window(name));
        let (off, k) = farthest(&port, &theirs);
        self.windows.number += 1;
        self.windows.entries += n as u64;
        self.windows.note(off, || format!("{line}, point {k}"));
        let largest = theirs.iter().fold(0.0, |m: f64, y| m.max(y.abs()));
        if !(off <= ALLOWED * largest) {
            self.differ("the crate", format!("{line}: point {k}: {}", power(off)));
        }
    }

    fn cosine(&mut self, k: f64) {
        let line = format!("cosine {}", hex(k));
        let Some((digits, port)) = self.samples(&line, 1) else { return };
        self.rendered("cosine", &line, &digits, &[self.wave.cosine(k)]);
        let off = distance(port[0], angle(k).cos());
        self.cosines.number += 1;
        self.cosines.note(off, || line.clone());
        if !(off <= line_allowed()) {
            self.differ("the machine's cosine", format!("{line}: {}", power(off)));
        }
    }

    fn sine(&mut self, k: f64) {
        let line = format!("sine {}", hex(k));
        let Some((digits, port)) = self.samples(&line, 1) else { return };
        self.rendered("sine", &line, &digits, &[self.wave.sine(k)]);
        let theirs = angle(k).sin();
        let off = distance(port[0], theirs);
        self.sines.number += 1;
        self.sines.note(off, || line.clone());
        if !(off <= line_allowed()) {
            self.differ("the machine's sine", format!("{line}: {}", power(off)));
        }
        // A small sine against its own size, as far as doubles have all their bits. A small negative k is a
        // fraction below 1, which has lost bits already; from 2^-16 up they do not matter.
        let small = (f64::powi(2.0, -900)..1.0).contains(&k) || (-1.0..=-f64::powi(2.0, -16)).contains(&k);
        if small {
            let share = off / theirs.abs();
            self.small_sines.number += 1;
            self.small_sines.note(share, || line.clone());
            if !(share <= share_allowed()) {
                self.differ("the machine's sine, by its own size", format!("{line}: {}", power(share)));
            }
        }
    }

    fn refusal(&mut self, line: String) {
        let answer = self.port.ask(&line);
        self.refused += 1;
        if answer != "ref 11" {
            self.differ("document 02's refusals", format!("{line}: {}, and must be refused 11", cut(&answer)));
        }
    }

    // Any arguments: refused 11, or taken and compared.
    fn any_table(&mut self, points: u64, factor: u64, cutoff: f64, name: &'static str) {
        let product = points as u128 * factor as u128;
        if (2..=LARGEST as u128).contains(&product) && cutoff > 0.0 && cutoff <= 1.0 {
            self.taken += 1;
            self.table(points as usize, factor as usize, Cutoff::Double(cutoff), name);
        } else {
            self.refusal(format!("sincs {points} {factor} {} {name}", bits(cutoff)));
        }
    }

    fn any_window(&mut self, n: u64, name: &'static str) {
        if (2..=LARGEST as u64).contains(&n) {
            self.taken += 1;
            self.window(n as usize, name);
        } else {
            self.refusal(format!("window {n} {name}"));
        }
    }

    fn any_angle(&mut self, k: f64) {
        if -LIMIT < k && k < LIMIT {
            self.taken += 2;
            self.cosine(k);
            self.sine(k);
        } else {
            self.refusal(format!("cosine {}", bits(k)));
            self.refusal(format!("sine {}", bits(k)));
        }
    }
}

// A NaN goes with all its bits: every pattern of it is to be refused.
fn bits(x: f64) -> String {
    format!("{:016x}", x.to_bits())
}

// How far two numbers are apart; a NaN is as far as can be.
fn distance(a: f64, b: f64) -> f64 {
    let d = (a - b).abs();
    if d.is_nan() {
        f64::INFINITY
    } else {
        d
    }
}

// The largest distance and its place.
fn farthest(ours: &[f64], theirs: &[f64]) -> (f64, usize) {
    let (mut off, mut at) = (0.0, 0);
    for (k, (a, b)) in ours.iter().zip(theirs).enumerate() {
        let d = distance(*a, *b);
        if d > off {
            (off, at) = (d, k);
        }
    }
    (off, at)
}

// The angle of k steps, less whole turns; the remainder is exact.
fn angle(k: f64) -> f64 {
    (k % 4096.0) * std::f64::consts::PI / 2048.0
}

// Arguments most of which must be refused.
fn refusals(random: &mut Random, tables: &mut Tables) {
    let name = random.pick(&WINDOWS);
    let (points, factor) = match random.below(3) {
        0 => wrapping(random),
        _ => (any_size(random), any_size(random)),
    };
    tables.any_table(points, factor, any_cutoff(random), name);
    let (points, factor) = (1 + random.below(9) as u64, 1 + random.below(9) as u64);
    tables.any_table(points, factor, any_cutoff(random), name);
    tables.any_window(any_size(random), name);
    tables.any_angle(any_steps(random));
}

// The ends of things, whatever the seed.
fn ends(tables: &mut Tables) {
    for name in WINDOWS {
        for (points, factor) in [(LARGEST, 1), (1, LARGEST), (256, 256)] {
            for cutoff in [calculate_cutoff::<f32>(points, words::window(name)), 1.0, 1e-12] {
                tables.table(points, factor, Cutoff::Single(cutoff), name);
            }
        }
        for (points, factor) in [(2, 1), (1, 2), (3, 1), (1, 3), (2, 2), (3, 3), (5, 7)] {
            for cutoff in [1.0, 0.5, 1e-3, 1e-9, 1e-12, 1e-20, 1e-38, 1e-40, f32::from_bits(1)] {
                tables.table(points, factor, Cutoff::Single(cutoff), name);
            }
        }
        for n in [2, 3, 4, 5, 7, 8, 255, 4095, 4096, 4097, 65_535, LARGEST] {
            tables.window(n, name);
        }
        for n in [0, 1, 65_537, u32::MAX as u64 + 3, u64::MAX] {
            tables.any_window(n, name);
        }
        for (points, factor) in [(0, 0), (0, 5), (5, 0), (1, 1), (LARGEST as u64, 2), (2, LARGEST as u64), (257, 256), (1 << 32, 1 << 32), ((1 << 63) + 1, 2), (u64::MAX, u64::MAX)] {
            tables.any_table(points, factor, 0.5, name);
        }
    }
    // every place of a turn, either way, and half-way to the next
    for n in -4096..=4096 {
        for x in [0.0, 0.5] {
            tables.cosine(n as f64 + x);
            tables.sine(n as f64 + x);
        }
    }
}

fn said(what: &str, noun: &str, unit: &str, worst: &Worst) {
    let entries = if worst.entries > 0 { format!(" of {} entries", worst.entries) } else { String::new() };
    println!("  {what:8} {} {noun}{entries}: at most {}{unit} ({})", worst.number, power(worst.off), worst.at);
}

fn report(tables: &Tables) {
    let (k, tie) = tables.wave.nearest;
    println!("the quarter wave worked out here: nearest to a tie is entry {k}, {tie:.6} away from it");
    println!("differences from the crate's make_sincs, as a share of the table's largest entry; 2^-18 is allowed:");
    let mut all = Worst::default();
    for (name, worst) in &tables.sincs {
        said(name, "tables", "", worst);
        all.number += worst.number;
        all.entries += worst.entries;
        all.note(worst.off, || worst.at.clone());
    }
    said("all", "tables", "", &all);
    println!("from the crate's make_window, as they are; 2^-18 of the window's largest is allowed:");
    said("window", "windows", "", &tables.windows);
    println!("from the machine's cosine and sine; {} is allowed, and {} of a small sine:", power(line_allowed()), power(share_allowed()));
    said("cosine", "values", "", &tables.cosines);
    said("sine", "values", "", &tables.sines);
    said("small", "sines", " of the sine", &tables.small_sines);
    println!("against the definitions, bit for bit:");
    for (word, (number, samples)) in &tables.same {
        println!("  {word:8} {number} lines, {samples} samples");
    }
    println!("of the tables:");
    for (kind, n) in &tables.kinds {
        println!("  {n:8} {kind}");
    }
    println!("refusals: {} lines that must be refused 11; {} like them that must not, compared above", tables.refused, tables.taken);
}

fn main() {
    let args: Vec<String> = std::env::args().collect();
    if args.len() < 2 {
        eprintln!("usage: tables CALLS [SEED] [TABLES]");
        std::process::exit(2);
    }
    let number = |k: usize, other: u64| {
        args.get(k).map_or(other, |w| w.parse().unwrap_or_else(|_| stop(format!("{w} is no whole number below 2^64"))))
    };
    let (seed, count) = (number(2, 1), number(3, 2000));
    let mut tables = Tables {
        port: Port::start(&args[1]),
        wave: Wave::new(),
        sincs: BTreeMap::new(),
        windows: Worst::default(),
        cosines: Worst::default(),
        sines: Worst::default(),
        small_sines: Worst::default(),
        same: BTreeMap::new(),
        kinds: BTreeMap::new(),
        refused: 0,
        taken: 0,
        differences: BTreeMap::new(),
    };
    let start = Instant::now();
    ends(&mut tables);
    eprintln!("{} s: the ends of things are done", start.elapsed().as_secs());
    let mut told = start.elapsed().as_secs();
    for n in 0..count {
        let mut random = Random::new(seed.wrapping_mul(0x9e37_79b9_7f4a_7c15) ^ n);
        let name = random.pick(&WINDOWS);
        let (points, factor) = shape(&mut random);
        let cutoff = cutoff(&mut random, points, factor, name);
        tables.table(points, factor, cutoff, name);
        if random.one_in(3) {
            let n = size(&mut random, LARGEST).max(2);
            tables.window(n, random.pick(&WINDOWS));
        }
        for _ in 0..10 {
            tables.cosine(steps(&mut random));
            tables.sine(steps(&mut random));
        }
        for _ in 0..3 {
            refusals(&mut random, &mut tables);
        }
        let seconds = start.elapsed().as_secs();
        if seconds >= told + 5 {
            told = seconds;
            eprintln!("{seconds} s: table {} of {count}, {} differences", n + 1, tables.differences.values().sum::<u64>());
        }
    }
    println!("seed {seed}, {count} random tables, {} s", start.elapsed().as_secs());
    report(&tables);
    tables.port.end();
    for (kind, n) in &tables.differences {
        println!("  {n:8} differences from {kind}");
    }
    let differences: u64 = tables.differences.values().sum();
    println!("{differences} differences");
    if differences > 0 {
        std::process::exit(1);
    }
}
