// The definition's answer to each line of the call script that speaks to the record, the working area or the
// table. It keeps all three, as the program `calls` does.
use crate::definition::{value, Blend, Kind, Lent, Record, Refused, BLENDS};
use crate::rendering::Wave;
use crate::words::{area, float, floats, hex};

// The most samples of the port's working area; a construction that needs more leaves it empty.
pub const ROOM: usize = 131_072;
// The most entries of a table that is built, and of one that is put in.
const BUILT: u128 = 65_536;
pub const TABLE: usize = 262_144;

pub const LETTERS: [&str; 4] = ["n", "l", "q", "c"];

// Each is unknown until a line of the script has set it.
#[derive(Default)]
pub struct Definition {
    pub record: Option<Record>,
    pub area: Option<Vec<f64>>,
    pub table: Option<Vec<f64>>,
    // made for the first table that is built
    wave: Option<Wave>,
}

fn refusal(r: Refused) -> String {
    let floats: String = r.1.iter().map(|x| format!(" {}", hex(*x))).collect();
    format!("ref {}{floats}", r.0)
}

// An area in the place of the one that is kept; one of more than `most` samples is no word, and changes nothing.
fn kept(place: &mut Option<Vec<f64>>, word: &str, most: usize) -> String {
    let xs = floats(word);
    if xs.len() > most {
        return "bad".into();
    }
    *place = Some(xs);
    "ok".into()
}

fn blend(word: &str) -> Blend {
    BLENDS[LETTERS.iter().position(|l| *l == word).expect("n, l, q or c")]
}

fn number(word: &str) -> usize {
    word.parse().expect("a whole number")
}

// L, or s:points:factor:blend.
fn kind(word: &str) -> Kind {
    match word.strip_prefix("s:") {
        None => Kind::Polynomial(number(word)),
        Some(rest) => {
            let w: Vec<&str> = rest.split(':').collect();
            Kind::Sinc { points: number(w[0]), factor: number(w[1]), blend: blend(w[2]) }
        }
    }
}

pub fn kind_text(kind: Kind) -> String {
    match kind {
        Kind::Polynomial(l) => l.to_string(),
        Kind::Sinc { points, factor, blend } => format!("s:{points}:{factor}:{}", LETTERS[blend as usize]),
    }
}

// The line that puts the record in, but for its steps.
pub fn rec_text(r: &Record) -> String {
    let side = if r.fixed_input { "in" } else { "out" };
    format!(
        "rec {} {side} {} {} {} {} {} {} {} {} {} {} {}",
        kind_text(r.kind), r.channels, r.chunk, r.chunk0, hex(r.original), hex(r.current), hex(r.target), hex(r.m), hex(r.index), r.fill, r.input, r.output
    )
}

// S of docs/CALLS.md.
pub fn s(r: &Record) -> String {
    let (most_input, most_output) = r.most().expect("the maximum sizes of a record that was taken");
    format!(
        "{} {} {} {} {} {} {} {} {} {} {} {most_input} {most_output} {} {}",
        r.channels, r.chunk, r.chunk0, r.input, r.output, hex(r.index), r.fill, hex(r.current), hex(r.original), hex(r.target), hex(r.m), hex(r.now), hex(r.then)
    )
}

impl Definition {
    // The lines that put all three in as they are.
    pub fn lines(&self) -> Vec<String> {
        let mut lines = vec![];
        if let Some(r) = &self.record {
            lines.push(rec_text(r));
            lines.push(format!("steps {} {}", hex(r.now), hex(r.then)));
        }
        lines.extend(self.area.iter().map(|xs| format!("setarea {}", area(xs))));
        lines.extend(self.table.iter().map(|xs| format!("settable {}", area(xs))));
        lines
    }

    // The answer, or none where it depends on what is not known, or the word does not speak to the three.
    pub fn answer(&mut self, line: &str) -> Option<String> {
        let w: Vec<&str> = line.split(' ').collect();
        match w[0] {
            "new" => self.construct(&w, Kind::Polynomial(number(w[3])), 4),
            "newsinc" => self.construct(&w, Kind::Sinc { points: number(w[3]), factor: number(w[4]), blend: blend(w[5]) }, 6),
            "rec" => self.put(&w),
            "setarea" => Some(kept(&mut self.area, w[1], ROOM)),
            "settable" => Some(kept(&mut self.table, w[1], TABLE)),
            "area" => self.area.as_ref().map(|xs| format!("ok {}", area(xs))),
            "sincs" => self.sincs(&w),
            _ => {
                let record = self.record.clone()?;
                match w[0] {
                    "steps" => {
                        self.record = Some(Record { now: float(w[1]), then: float(w[2]), ..record });
                        Some("ok".into())
                    }
                    "abs" | "rel" => self.changed(record.set_ratio(float(w[1]), w[0] == "rel", w[2] == "1")),
                    "chunk" => self.changed(record.set_chunk(number(w[1]))),
                    "reset" => {
                        let said = record.reset(self.area.as_mut()?);
                        self.changed(said)
                    }
                    "block" => self.block(&record, &w),
                    "q" => Some(question(&record)),
                    "qsteps" => Some(match record.tested() {
                        Ok(()) => format!("ok {} {}", hex(record.now), hex(record.then)),
                        Err(r) => refusal(r),
                    }),
                    _ => None,
                }
            }
        }
    }

    fn changed(&mut self, said: Result<Record, Refused>) -> Option<String> {
        Some(match said {
            Ok(next) => {
                let text = format!("ok {}", s(&next));
                self.record = Some(next);
                text
            }
            Err(r) => refusal(r),
        })
    }

    // The words from `at` on are the chunk, the channels and the side.
    fn construct(&mut self, w: &[&str], kind: Kind, at: usize) -> Option<String> {
        let said = Record::construct(float(w[1]), float(w[2]), kind, number(w[at]), number(w[at + 1]), w[at + 2] == "in");
        if let Ok(made) = &said {
            let length = made.channels * made.stride().unwrap();
            self.area = Some(vec![0.0; if length > ROOM { 0 } else { length }]);
        }
        self.changed(said)
    }

    fn put(&mut self, w: &[&str]) -> Option<String> {
        let mut r = Record {
            kind: kind(w[1]),
            fixed_input: w[2] == "in",
            channels: number(w[3]),
            chunk: number(w[4]),
            chunk0: number(w[5]),
            original: float(w[6]),
            current: float(w[7]),
            target: float(w[8]),
            m: float(w[9]),
            index: float(w[10]),
            fill: number(w[11]),
            input: number(w[12]),
            output: number(w[13]),
            now: 0.0,
            then: 0.0,
        };
        r.divide();
        self.record = Some(r);
        Some("ok".into())
    }

    fn sincs(&mut self, w: &[&str]) -> Option<String> {
        let (points, factor, cutoff) = (number(w[1]), number(w[2]), float(w[3]));
        let product = points as u128 * factor as u128;
        if !((2..=BUILT).contains(&product) && cutoff > 0.0 && cutoff <= 1.0) {
            return Some("ref 11".into());
        }
        let table = self.wave.get_or_insert_with(Wave::new).sincs(points, factor, cutoff, w[4]);
        let text = format!("ok {}", area(&table));
        self.table = Some(table);
        Some(text)
    }

    fn block(&mut self, record: &Record, w: &[&str]) -> Option<String> {
        let mut output = floats(w[4]);
        let none = vec![];
        let table = match record.kind {
            Kind::Polynomial(_) => &none,
            Kind::Sinc { .. } => self.table.as_ref()?,
        };
        let mut lent = Lent {
            count: number(w[1]),
            mask: w[2].parse().unwrap(),
            table,
            input: &floats(w[3]),
            output: &mut output,
            work: self.area.as_mut()?,
        };
        match record.block(&mut lent, &value) {
            Ok(next) => {
                let text = format!("ok {} {} {} {}", record.input, record.output, area(&output), s(&next));
                self.record = Some(next);
                Some(text)
            }
            Err(r) => Some(refusal(r)),
        }
    }
}

fn question(r: &Record) -> String {
    match r.tested() {
        Ok(()) => {
            let (most_input, most_output) = r.most().unwrap();
            format!("ok {} {} {most_input} {most_output} {} {}", r.input, r.output, hex(r.current), r.delay())
        }
        Err(refused) => refusal(refused),
    }
}
