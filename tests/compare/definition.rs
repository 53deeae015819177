// The definition of the record and of the block run, worked out a second time from documents 01 and 02 (R-1,
// one record for both kinds, everything over L. None of the port's files is read when it runs. The crate's
// own leaves are taken for the kernels and for the blends of grid points, as document 01 says.
use rubato::Async;

// The largest size, in frames.
const LARGEST: f64 = 65_536.0;

#[derive(Clone, Copy, Debug, PartialEq, Eq, PartialOrd, Ord)]
pub enum Blend {
    Nearest,
    Linear,
    Quadratic,
    Cubic,
}

pub const BLENDS: [Blend; 4] = [Blend::Nearest, Blend::Linear, Blend::Quadratic, Blend::Cubic];

impl Blend {
    // Nearest has one grid point, Linear two, Quadratic three, Cubic four.
    pub fn count(self) -> usize {
        self as usize + 1
    }
}

#[derive(Clone, Copy, Debug, PartialEq)]
pub enum Kind {
    // 1, 2, 4, 6 or 8 points
    Polynomial(usize),
    // any points and factor: a record can have wrong ones
    Sinc { points: usize, factor: usize, blend: Blend },
}

impl Kind {
    pub fn points(self) -> usize {
        match self {
            Kind::Polynomial(points) => points,
            Kind::Sinc { points, .. } => points,
        }
    }

    // "points even, 8 to 256; factor 3 to 1,024"
    pub fn holds(self) -> bool {
        match self {
            Kind::Polynomial(_) => true,
            Kind::Sinc { points, factor, .. } => points % 2 == 0 && (8..=256).contains(&points) && (3..=1024).contains(&factor),
        }
    }

    // "The index starts at -(L/2), so -0.5 for Nearest"
    pub fn start(self) -> f64 {
        -(self.points() as f64 / 2.0)
    }

    // The samples of the table that a block asks for; a polynomial is lent none.
    pub fn table(self) -> Option<usize> {
        match self {
            Kind::Polynomial(_) => None,
            Kind::Sinc { points, factor, .. } => Some(points * factor),
        }
    }
}

#[derive(Clone, Debug)]
pub struct Record {
    pub kind: Kind,
    pub fixed_input: bool,
    pub channels: usize,
    pub chunk: usize,
    pub chunk0: usize,
    pub original: f64,
    pub current: f64,
    pub target: f64,
    pub m: f64,
    pub index: f64,
    pub fill: usize,
    pub input: usize,
    pub output: usize,
    // the stored steps
    pub now: f64,
    pub then: f64,
}

// A refusal's number and the floats that it carries.
#[derive(Debug)]
pub struct Refused(pub u8, pub Vec<f64>);

pub type Said<T> = Result<T, Refused>;

fn unless(holds: bool, number: u8, floats: &[f64]) -> Said<()> {
    if holds {
        Ok(())
    } else {
        Err(Refused(number, floats.to_vec()))
    }
}

// "A size is truncated to a whole number and a negative one becomes 0"; none where it exceeds 65,536.
fn size(x: f64) -> Option<usize> {
    (x.trunc() <= LARGEST).then_some(x.max(0.0) as usize)
}

// "Every ratio in use: 1/256 to 256, ends included"
fn in_use(r: f64) -> bool {
    (1.0 / 256.0..=256.0).contains(&r)
}

// The bits of the division; a NaN never has them.
fn is_step(step: f64, ratio: f64) -> bool {
    !step.is_nan() && step.to_bits() == (1.0 / ratio).to_bits()
}

impl Record {
    pub fn l(&self) -> usize {
        self.kind.points()
    }

    pub fn divide(&mut self) {
        self.now = 1.0 / self.current;
        self.then = 1.0 / self.target;
    }

    // Needed input and output, in the source's operation order.
    fn needed(&self) -> Option<(usize, usize)> {
        let avg = 0.5 * (self.now + self.then);
        let over = 0.5 * (self.then - self.now);
        let (i, c, l) = (self.index, self.chunk as f64, self.l());
        let (input, output) = if self.fixed_input {
            (c, (((c - (l + 1) as f64 - i) - over) / avg).floor())
        } else {
            ((i + c * avg + over + l as f64).ceil(), c)
        };
        Some((size(input)?, size(output)?))
    }

    // Maximum input and output, from the construction values.
    pub fn most(&self) -> Option<(usize, usize)> {
        let c0 = self.chunk0 as f64;
        let (input, output) = if self.fixed_input {
            (c0, c0 * self.original * self.m + 10.0)
        } else {
            ((c0 / self.original * self.m).ceil() + 2.0 + (self.l() / 2) as f64, c0)
        };
        Some((size(input)?, size(output)?))
    }

    // The samples of one channel's working area, where the maximum sizes hold.
    pub fn stride(&self) -> Option<usize> {
        Some(self.most()?.0 + 2 * self.l())
    }

    // "Sizes are worked out again"; refusal 6 where one is too large.
    pub fn sized(mut self) -> Said<Record> {
        let fits = self.needed().zip(self.most()).filter(|((input, _), (most, _))| input <= most);
        let Some(((input, output), _)) = fits else { return Err(Refused(6, vec![])) };
        self.input = input;
        self.output = output;
        Ok(self)
    }

    // The StateRecord test.
    fn stands(&self) -> bool {
        let sizes = 1..=LARGEST as usize;
        let Some((most_input, _)) = self.most() else { return false };
        (1..=16).contains(&self.channels)
            && sizes.contains(&self.chunk)
            && sizes.contains(&self.chunk0)
            && self.chunk <= self.chunk0
            && in_use(self.original)
            && in_use(self.current)
            && in_use(self.target)
            && self.m.is_finite()
            && self.m >= 1.0
            && is_step(self.now, self.current)
            && is_step(self.then, self.target)
            && self.needed() == Some((self.input, self.output))
            && self.input <= most_input
            && self.fill <= most_input
            && self.index.abs() < 131_072.0
    }

    // "other points or factors 11, first"; then 10.
    pub fn tested(&self) -> Said<()> {
        unless(self.kind.holds(), 11, &[])?;
        unless(self.stands(), 10, &[])
    }

    pub fn construct(r: f64, m: f64, kind: Kind, chunk: usize, channels: usize, fixed_input: bool) -> Said<Record> {
        unless(kind.holds(), 11, &[])?;
        unless(r.is_finite() && r > 0.0, 1, &[r])?;
        unless(m.is_finite() && m >= 1.0, 2, &[m])?;
        unless(chunk > 0, 3, &[])?;
        unless(in_use(r), 5, &[r])?;
        unless((1..=16).contains(&channels), 7, &[])?;
        let mut fresh = Record {
            kind, fixed_input, channels, chunk, chunk0: chunk, original: r, current: r, target: r, m,
            index: kind.start(), fill: 0, input: 0, output: 0, now: 0.0, then: 0.0,
        };
        fresh.divide();
        let mut made = fresh.sized()?;
        made.fill = made.input;
        Ok(made)
    }

    // An absolute setting, or a relative one.
    pub fn set_ratio(&self, r: f64, relative: bool, ramp: bool) -> Said<Record> {
        self.tested()?;
        let (rel, new) = if relative { (r, self.original * r) } else { (r / self.original, r) };
        let product = !relative || (new.is_finite() && new > 0.0);
        unless(product && 1.0 / self.m <= rel && rel <= self.m, 4, &[new, self.original, self.m])?;
        unless(in_use(new), 5, &[new])?;
        let mut next = self.clone();
        next.target = new;
        if !ramp {
            next.current = new;
        }
        next.divide();
        next.sized()
    }

    pub fn set_chunk(&self, chunk: usize) -> Said<Record> {
        self.tested()?;
        unless(chunk > 0 && chunk <= self.chunk0, 3, &[])?;
        Record { chunk, ..self.clone() }.sized()
    }

    // Whether the working area has its length.
    fn has_room(&self, work: &[f64]) -> bool {
        self.stride().is_some_and(|stride| work.len() == self.channels * stride)
    }

    // The fill is not touched.
    pub fn reset(&self, work: &mut [f64]) -> Said<Record> {
        self.tested()?;
        unless(self.has_room(work), 8, &[])?;
        let (original, chunk) = (self.original, self.chunk0);
        let mut next = Record { current: original, target: original, chunk, index: self.kind.start(), ..self.clone() };
        next.divide();
        let next = next.sized()?;
        work.fill(0.0);
        Ok(next)
    }

    // "L*r1/2, truncated"
    pub fn delay(&self) -> usize {
        (self.l() as f64 * self.current / 2.0) as usize
    }

    // The first place of each list of L samples that a frame at this index reads, and the table's row.
    pub fn spots(&self, index: f64) -> Vec<(i64, usize)> {
        let shift = 2 * self.l() as i64;
        match self.kind {
            Kind::Polynomial(points) => {
                let before = if points < 4 { 0 } else { points as i64 / 2 - 1 };
                vec![(index.floor() as i64 - before + shift, 0)]
            }
            Kind::Sinc { factor, blend, .. } => grid(blend.count(), index, factor).iter().map(|(i, s)| (i + shift, *s)).collect(),
        }
    }

    // "Reach covers every grid point's samples": of one frame.
    fn reaches(&self, index: f64) -> bool {
        let end = (2 * self.l() + self.input) as i64;
        self.spots(index).iter().all(|(start, _)| *start >= 0 && start + self.l() as i64 <= end)
    }

    // The frames' indexes: "t becomes t+d, then the index becomes index+t".
    pub fn path(&self) -> Vec<f64> {
        let (mut t, mut index) = (self.now, self.index);
        let d = if self.output == 0 { 0.0 } else { (self.then - self.now) / self.output as f64 };
        let mut path = vec![];
        for _ in 0..self.output {
            t += d;
            index += t;
            path.push(index);
        }
        path
    }

    // Refusals 8, 9 and 6 of a block, and the record after it.
    fn planned(&self, lent: &Lent) -> Said<Record> {
        let read = lent.count.min(self.input);
        let share = |area: &[f64], frames: usize| area.len() % self.channels == 0 && area.len() / self.channels >= frames;
        let shape = share(lent.input, read)
            && share(lent.output, self.output)
            && self.has_room(lent.work)
            && lent.mask >> self.channels == 0
            && self.kind.table().map_or(true, |length| length == lent.table.len());
        unless(shape, 8, &[])?;
        let path = self.path();
        unless(path.iter().all(|index| self.reaches(*index)), 9, &[])?;
        let last = path.last().copied().unwrap_or(self.index);
        let mut next = Record { index: last - self.input as f64, fill: self.input, current: self.target, ..self.clone() };
        next.divide();
        next.sized()
    }

    // The block run; `value` gives a frame's value from one channel's working area, the table and the index.
    pub fn block(&self, lent: &mut Lent, value: &dyn Fn(&Record, &[f64], &[f64], f64) -> f64) -> Said<Record> {
        self.tested()?;
        let next = self.planned(lent)?;
        let (l, path) = (self.l(), self.path());
        let read = lent.count.min(self.input);
        let (share_in, share_out) = (lent.input.len() / self.channels, lent.output.len() / self.channels);
        let stride = lent.work.len() / self.channels;
        for c in 0..self.channels {
            let work = &mut lent.work[c * stride..(c + 1) * stride];
            work.copy_within(self.fill..self.fill + 2 * l, 0);
            if lent.mask >> c & 1 == 0 {
                continue;
            }
            work[2 * l..2 * l + read].copy_from_slice(&lent.input[c * share_in..c * share_in + read]);
            work[2 * l + read..2 * l + self.input].fill(0.0);
            for (k, index) in path.iter().enumerate() {
                lent.output[c * share_out + k] = value(self, work, lent.table, *index);
            }
        }
        Ok(next)
    }
}

// What a block is lent.
pub struct Lent<'a> {
    pub count: usize,
    pub mask: u64,
    pub table: &'a [f64],
    pub input: &'a [f64],
    pub output: &'a mut [f64],
    pub work: &'a mut [f64],
}

// Document 01, "Grid points": n of them, as index and subindex.
pub fn grid(n: usize, t: f64, factor: usize) -> Vec<(i64, usize)> {
    let inner = (t - t.floor()) * factor as f64;
    let first = t.floor() as i64 * factor as i64;
    let (q, from) = match n {
        1 => (first + inner.round() as i64, 0),
        4 => (first + inner.floor() as i64, -1),
        _ => (first + inner.floor() as i64, 0),
    };
    let factor = factor as i64;
    (0..n as i64).map(|k| q + from + k).map(|p| (p.div_euclid(factor), p.rem_euclid(factor) as usize)).collect()
}

// "the blend place is index*factor minus its floor"
pub fn blend_place(index: f64, factor: usize) -> f64 {
    let x = index * factor as f64;
    x - x.floor()
}

// "sums, in rising order, the L samples .. times table row", begun with the first product.
pub fn rising(samples: &[f64], row: &[f64]) -> f64 {
    let mut sum = samples[0] * row[0];
    for k in 1..row.len() {
        sum += samples[k] * row[k];
    }
    sum
}

// The values of a frame's grid points, each by `sum`.
pub fn points(record: &Record, work: &[f64], table: &[f64], index: f64, sum: &dyn Fn(&[f64], &[f64]) -> f64) -> Vec<f64> {
    let l = record.l();
    let part = |start: i64| &work[start as usize..start as usize + l];
    record.spots(index).iter().map(|(start, row)| sum(part(*start), &table[row * l..(row + 1) * l])).collect()
}

// A frame's value.
pub fn value(record: &Record, work: &[f64], table: &[f64], index: f64) -> f64 {
    match record.kind {
        Kind::Polynomial(l) => {
            let start = record.spots(index)[0].0 as usize;
            Async::kernel(l, index - index.floor(), &work[start..start + l])
        }
        Kind::Sinc { factor, .. } => blended(blend_place(index, factor), &points(record, work, table, index, &rising)),
    }
}

// The blend of one to four grid points, by the crate's `interp_` functions.
pub fn blended(place: f64, values: &[f64]) -> f64 {
    match values.len() {
        1 => values[0],
        n => Async::blend(n, place, values),
    }
}
