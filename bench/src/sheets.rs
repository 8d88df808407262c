//! Sheets to compare on: built ones, random ones that are mostly sound, and damaged ones.

/// A small generator of numbers, so that every run compares on the same inputs.
pub struct Random(u64);

impl Random {
    pub fn new(seed: u64) -> Random {
        Random(seed.wrapping_mul(0x9E37_79B9_7F4A_7C15) | 1)
    }

    pub fn next(&mut self) -> u64 {
        self.0 ^= self.0 << 13;
        self.0 ^= self.0 >> 7;
        self.0 ^= self.0 << 17;
        self.0
    }

    pub fn below(&mut self, n: u64) -> u64 {
        self.next() % n
    }

    pub fn chance(&mut self, percent: u64) -> bool {
        self.below(100) < percent
    }
}

pub type Variable = (u8, u8, u16);

/// A record's twelve bytes.
pub fn record(form: u8, label: u8, [x, a, b, c]: [u8; 4], next: u16, rest: u32) -> [u8; 12] {
    let [n0, n1] = next.to_le_bytes();
    let [r0, r1, r2, r3] = rest.to_le_bytes();
    [form, label, x, a, b, c, n0, n1, r0, r1, r2, r3]
}

pub fn sheet(variables: &[Variable], records: &[[u8; 12]]) -> Vec<u8> {
    let [r0, r1] = (records.len() as u16).to_le_bytes();
    let mut bytes = vec![1, variables.len() as u8, r0, r1];
    for (kind, label, length) in variables {
        let [n0, n1] = length.to_le_bytes();
        bytes.extend([*kind, *label, n0, n1]);
    }
    bytes.extend(records.iter().flatten());
    bytes
}

/// A public loop over an array of 4,096 cells: it adds the index to each cell, again and again.
pub fn public_loop() -> Vec<u8> {
    // 0: always 1; 1: index; 2: one; 3: cell; 4: mask; 5: the array
    let variables = [(0, 0, 0), (0, 0, 0), (0, 0, 0), (0, 0, 0), (0, 0, 0), (1, 0, 4096)];
    let records = [
        record(2, 0, [0, 0, 0, 0], 2, 1),
        record(2, 0, [2, 0, 0, 0], 3, 1),
        record(2, 0, [4, 0, 0, 0], 4, 4095),
        record(8, 0, [0, 0, 0, 0], 0, 5),
        record(4, 0, [3, 5, 1, 0], 6, 0),
        record(3, 0, [3, 3, 1, 1], 7, 0),
        record(6, 0, [5, 1, 3, 0], 8, 0),
        record(3, 0, [1, 1, 2, 1], 9, 0),
        record(3, 0, [1, 1, 4, 6], 0, 0),
    ];
    sheet(&variables, &records)
}

/// The largest sheet: 64 variables and 512 records, sixteen deep.
pub fn large() -> Vec<u8> {
    let variables: Vec<Variable> = (0..64).map(|v| if v < 4 { (1, v as u8, 4096) } else { (0, (v % 4) as u8, 0) }).collect();
    let mut records = Vec::new();
    for k in 1..=512u16 {
        let next = if k < 512 { k + 1 } else { 0 };
        let v = (k % 16) as u8 * 4 + 4;
        let v = if v >= 64 { v - 60 + 4 } else { v };
        let (a, b) = (v & !3, (v & !3) + 3);
        records.push(match k {
            // Fifteen ifs, each inside the one before, guarded by public numbers.
            1..=15 => record(7, 0, [0, 8, 0, 0], 0, next as u32),
            _ => match k % 5 {
                0 => record(3, 3, [b, a, b, 1], next, 0),
                1 => record(5, 3, [b, a, b, b], next, 0),
                2 => record(4, 3, [b, 3, b, 0], next, 0),
                3 => record(6, 3, [3, b, b, 0], next, 0),
                _ => record(1, 3, [b, a, 0, 0], next, 0),
            },
        });
    }
    sheet(&variables, &records)
}

/// A random sheet. Without flaws it keeps every rule; with some, most records still do.
pub fn random(r: &mut Random) -> Vec<u8> {
    let flaws = if r.chance(60) { 0 } else { 3 };
    let labels: &[u8] = [&[0u8, 1, 2, 3][..], &[0], &[0, 1], &[0, 3], &[1, 3]][r.below(5) as usize];
    let (large, deep) = (r.chance(2), r.chance(4));
    let variables: Vec<Variable> = (0..2 + r.below(12))
        .map(|_| {
            let label = if r.chance(flaws) { r.below(6) as u8 } else { labels[r.below(labels.len() as u64) as usize] };
            let length = if large { 4096 - r.below(9) as u16 } else if r.chance(50) { 3 } else { 1 + r.below(9) as u16 };
            if r.chance(if large { 60 } else { 30 }) { (1, label, length) } else { (0, label, 0) }
        })
        .collect();
    let mut records: Vec<[u8; 12]> = vec![];
    // The open links, with the label of the surroundings that they lead to.
    let mut open = vec![(0, 0, 0)];
    for k in 1..=1 + r.below(if deep { 200 } else { 24 }) as u16 {
        let chosen = if deep { open.len() - 1 } else { r.below(open.len() as u64) as usize };
        let (from, at, around) = open.swap_remove(chosen);
        if k > 1 {
            records[from][at..at + 2].copy_from_slice(&k.to_le_bytes());
        }
        let record = Maker { r, variables: &variables, flaws }.record(around);
        let place = records.len();
        open.push((place, 6, around));
        match record[0] {
            7 => open.extend([(place, 8, record[1]), (place, 10, record[1])]),
            8 => open.push((place, 8, record[1])),
            _ => {}
        }
        records.push(record);
    }
    sheet(&variables, &records)
}

struct Maker<'a> {
    r: &'a mut Random,
    variables: &'a [Variable],
    flaws: u64,
}

impl Maker<'_> {
    /// A variable of this kind that passes the test, if there is one.
    fn pick(&mut self, kind: u8, test: impl Fn(&Variable) -> bool) -> Option<u8> {
        if self.r.chance(self.flaws) {
            return Some(self.r.below(self.variables.len() as u64 + 1) as u8);
        }
        let fit: Vec<u8> = (0..self.variables.len())
            .filter(|v| self.variables[*v].0 == kind && test(&self.variables[*v]))
            .map(|v| v as u8)
            .collect();
        if fit.is_empty() { None } else { Some(fit[self.r.below(fit.len() as u64) as usize]) }
    }

    fn label_of(&self, v: u8) -> u8 {
        self.variables.get(v as usize).map_or(0, |v| v.1)
    }

    /// A number that may be read under the label.
    fn source(&mut self, label: u8) -> Option<u8> {
        self.pick(0, |v| v.1 == 0 || v.1 == label || label == 3)
    }

    fn record(&mut self, around: u8) -> [u8; 12] {
        let made = (0..4).find_map(|_| self.try_record(around)).unwrap_or(record(0, around, [0; 4], 0, 0));
        let mut made = made;
        if self.r.chance(self.flaws) {
            made[1] = self.r.below(5) as u8;
        }
        made
    }

    fn try_record(&mut self, around: u8) -> Option<[u8; 12]> {
        let form = self.r.below(11) as u8;
        let around_fits = move |v: &Variable| around == 0 || v.1 == around;
        let target = self.pick((form == 6 || form == 10) as u8, around_fits)?;
        let l = self.label_of(target);
        Some(match form {
            0 => record(0, if around == 0 { l } else { around }, [0; 4], 0, 0),
            1 => record(1, l, [target, self.source(l)?, 0, 0], 0, 0),
            2 => record(2, l, [target, 0, 0, 0], 0, self.value()),
            3 => record(3, l, [target, self.source(l)?, self.source(l)?, 1 + self.r.below(8) as u8], 0, 0),
            4 => {
                let array = self.pick(1, |v| v.1 == 0 || v.1 == l || l == 3)?;
                let index = self.source(self.label_of(array))?;
                record(4, l, [target, array, index, 0], 0, 0)
            }
            5 => record(5, l, [target, self.source(l)?, self.source(l)?, self.source(l)?], 0, 0),
            6 => record(6, l, [target, self.source(l)?, self.source(l)?, 0], 0, 0),
            7 | 8 => {
                let guard = self.pick(0, |v| around_fits(v) && v.1 != 3)?;
                record(form, self.label_of(guard), [0, guard, 0, 0], 0, 0)
            }
            9 if around == 0 => record(9, 3, [self.pick(0, |v| v.1 != 3)?, self.pick(0, |v| v.1 == 3)?, 0, 0], 0, 0),
            10 if around == 0 => {
                let secret = self.pick(1, |v| v.1 == 3)?;
                let length = self.variables.get(secret as usize).map_or(0, |v| v.2);
                record(10, 3, [secret, self.pick(1, |v| v.1 != 3 && v.2 == length)?, 0, 0], 0, 0)
            }
            _ => return None,
        })
    }

    fn value(&mut self) -> u32 {
        if self.r.chance(70) { self.r.below(3) as u32 } else { self.r.next() as u32 }
    }
}

/// A sheet with some bytes changed, cut off or added.
pub fn damaged(r: &mut Random, sheet: &[u8]) -> Vec<u8> {
    let mut bytes = sheet.to_vec();
    match r.below(5) {
        0 => bytes.truncate(r.below(bytes.len() as u64 + 1) as usize),
        1 => bytes.push(r.next() as u8),
        _ => {
            for _ in 0..1 + r.below(3) {
                let at = r.below(bytes.len() as u64) as usize;
                bytes[at] = if r.chance(50) { r.below(12) as u8 } else { r.next() as u8 };
            }
        }
    }
    bytes
}
