//! The same engine in plain Rust, written from the rules and without the libraries of this repository: what the engine
//! is compared with, in results and in speed.

pub const P: u8 = 0;
pub const O: u8 = 3;
const JOIN: [[u8; 4]; 4] = [[0, 1, 2, 3], [1, 1, 3, 3], [2, 3, 2, 3], [3, 3, 3, 3]];

fn knows(label: u8) -> bool {
    label < 4
}

fn join(m: u8, n: u8) -> u8 {
    if knows(m) && knows(n) { JOIN[m as usize][n as usize] } else { O }
}

fn flows(m: u8, n: u8) -> bool {
    knows(m) && knows(n) && join(m, n) == n
}

fn opens(label: u8, party: u8) -> bool {
    matches!((label, party), (0, 0..=1) | (1, 0) | (2, 1))
}

#[repr(C)]
#[derive(Clone, Copy, PartialEq, Eq, Debug, Default)]
pub struct Entry {
    pub kind: u8,
    pub label: u8,
    pub record: u16,
    pub variable: u8,
    pub mark: u8,
    pub index: u32,
    pub value: u32,
}

#[derive(Clone, Copy, PartialEq, Eq, Debug)]
pub enum Layer {
    Sheet = 1,
    Shape = 2,
    Rule = 3,
    Session = 4,
    Log = 5,
}

#[derive(Clone, Copy, PartialEq, Eq, Debug)]
pub struct Refusal {
    pub layer: Layer,
    pub number: u8,
    pub place: usize,
}

fn refuse<T>(layer: Layer, number: u8, place: usize) -> Result<T, Refusal> {
    Err(Refusal { layer, number, place })
}

#[derive(Clone, Copy)]
pub enum Kind {
    Number,
    Array(u16),
}

#[derive(Clone, Copy)]
pub struct Variable {
    kind: Kind,
    label: u8,
}

impl Variable {
    fn cells(&self) -> u32 {
        match self.kind {
            Kind::Number => 0,
            Kind::Array(n) => n as u32,
        }
    }
}

#[derive(Clone, Copy)]
pub enum Op {
    Sum,
    Difference,
    Product,
    Equal,
    Less,
    And,
    Or,
    Xor,
}

#[derive(Clone, Copy)]
pub enum Form {
    Skip,
    Copy { x: u8, a: u8 },
    Constant { x: u8, value: u32 },
    Binary { x: u8, a: u8, b: u8, op: Op },
    Fetch { x: u8, a: u8, b: u8 },
    Mux { x: u8, a: u8, b: u8, c: u8 },
    Store { x: u8, a: u8, b: u8 },
    If { a: u8, then: u16, other: u16 },
    While { a: u8, body: u16 },
    Declass { x: u8, a: u8 },
    Oram { x: u8, a: u8 },
}

#[derive(Clone, Copy)]
pub struct Record {
    label: u8,
    next: u16,
    form: Form,
}

pub struct Program {
    variables: Vec<Variable>,
    records: Vec<Record>,
}

fn short(bytes: &[u8], at: usize) -> u16 {
    u16::from_le_bytes([bytes[at], bytes[at + 1]])
}

fn read_variable(bytes: &[u8], at: usize, total: &mut usize) -> Result<Variable, Refusal> {
    let (kind, label, length) = (bytes[at], bytes[at + 1], short(bytes, at + 2));
    if kind > 1 {
        return refuse(Layer::Sheet, 6, at);
    }
    if (kind == 0 && length != 0) || (kind == 1 && !(1..=4096).contains(&length)) {
        return refuse(Layer::Sheet, 7, at + 2);
    }
    *total += length as usize;
    if *total > 16384 {
        return refuse(Layer::Sheet, 8, at + 2);
    }
    let kind = if kind == 0 { Kind::Number } else { Kind::Array(length) };
    Ok(Variable { kind, label })
}

/// The unused bytes of each form, a bit for each of the twelve.
const UNUSED: [u16; 11] = [
    0b1111_0011_1100,
    0b1111_0011_0000,
    0b0000_0011_1000,
    0b1111_0000_0000,
    0b1111_0010_0000,
    0b1111_0000_0000,
    0b1111_0010_0000,
    0b0000_0011_0100,
    0b1100_0011_0100,
    0b1111_0011_0000,
    0b1111_0011_0000,
];

fn operator(code: u8) -> Option<Op> {
    Some(match code {
        1 => Op::Sum,
        2 => Op::Difference,
        3 => Op::Product,
        4 => Op::Equal,
        5 => Op::Less,
        6 => Op::And,
        7 => Op::Or,
        8 => Op::Xor,
        _ => return None,
    })
}

fn read_record(bytes: &[u8], at: usize) -> Result<Record, Refusal> {
    let part: &[u8; 12] = bytes[at..at + 12].try_into().unwrap();
    if part[0] > 10 {
        return refuse(Layer::Sheet, 9, at);
    }
    let unused = UNUSED[part[0] as usize];
    if let Some(i) = (0..12).find(|i| unused >> i & 1 == 1 && part[*i] != 0) {
        return refuse(Layer::Sheet, 10, at + i);
    }
    let [form, label, x, a, b, c, n0, n1, r0, r1, r2, r3] = *part;
    let form = match form {
        0 => Form::Skip,
        1 => Form::Copy { x, a },
        2 => Form::Constant { x, value: u32::from_le_bytes([r0, r1, r2, r3]) },
        3 => match operator(c) {
            Some(op) => Form::Binary { x, a, b, op },
            None => return refuse(Layer::Sheet, 11, at + 5),
        },
        4 => Form::Fetch { x, a, b },
        5 => Form::Mux { x, a, b, c },
        6 => Form::Store { x, a, b },
        7 => Form::If { a, then: u16::from_le_bytes([r0, r1]), other: u16::from_le_bytes([r2, r3]) },
        8 => Form::While { a, body: u16::from_le_bytes([r0, r1]) },
        9 => Form::Declass { x, a },
        _ => Form::Oram { x, a },
    };
    Ok(Record { label, next: u16::from_le_bytes([n0, n1]), form })
}

fn read(bytes: &[u8]) -> Result<Program, Refusal> {
    if bytes.len() < 4 {
        return refuse(Layer::Sheet, 1, bytes.len());
    }
    if bytes[0] != 1 {
        return refuse(Layer::Sheet, 2, 0);
    }
    let variables = bytes[1] as usize;
    if !(1..=64).contains(&variables) {
        return refuse(Layer::Sheet, 3, 1);
    }
    let records = short(bytes, 2) as usize;
    if !(1..=512).contains(&records) {
        return refuse(Layer::Sheet, 4, 2);
    }
    if bytes.len() != 4 + 4 * variables + 12 * records {
        return refuse(Layer::Sheet, 5, bytes.len());
    }
    let mut total = 0;
    let variables = (0..variables).map(|k| read_variable(bytes, 4 + 4 * k, &mut total)).collect::<Result<Vec<_>, _>>()?;
    let first = 4 + 4 * variables.len();
    let records = (0..records).map(|k| read_record(bytes, first + 12 * k)).collect::<Result<Vec<_>, _>>()?;
    Ok(Program { variables, records })
}

impl Form {
    fn links(&self) -> (u16, u16) {
        match *self {
            Form::If { then, other, .. } => (then, other),
            Form::While { body, .. } => (body, 0),
            _ => (0, 0),
        }
    }

    /// The operands that must be numbers, and those that must be arrays.
    fn operands(&self) -> (Operands, Operands) {
        match *self {
            Form::Skip => (Operands::new(&[]), Operands::new(&[])),
            Form::Copy { x, a } | Form::Declass { x, a } => (Operands::new(&[x, a]), Operands::new(&[])),
            Form::Constant { x, .. } => (Operands::new(&[x]), Operands::new(&[])),
            Form::Binary { x, a, b, .. } => (Operands::new(&[x, a, b]), Operands::new(&[])),
            Form::Fetch { x, a, b } => (Operands::new(&[x, b]), Operands::new(&[a])),
            Form::Mux { x, a, b, c } => (Operands::new(&[x, a, b, c]), Operands::new(&[])),
            Form::Store { x, a, b } => (Operands::new(&[a, b]), Operands::new(&[x])),
            Form::If { a, .. } | Form::While { a, .. } => (Operands::new(&[a]), Operands::new(&[])),
            Form::Oram { x, a } => (Operands::new(&[]), Operands::new(&[x, a])),
        }
    }
}

struct Operands {
    names: [u8; 4],
    count: usize,
}

impl Operands {
    #[inline]
    fn new(names: &[u8]) -> Operands {
        let mut all = [0; 4];
        all[..names.len()].copy_from_slice(names);
        Operands { names: all, count: names.len() }
    }

    fn iter(&self) -> impl Iterator<Item = u8> + '_ {
        self.names[..self.count].iter().copied()
    }
}

impl Program {
    fn check_record(&self, k: usize) -> Result<(), Refusal> {
        let record = &self.records[k - 1];
        if !knows(record.label) {
            return refuse(Layer::Shape, 21, k);
        }
        let (numbers, arrays) = record.form.operands();
        if numbers.iter().chain(arrays.iter()).any(|v| v as usize >= self.variables.len()) {
            return refuse(Layer::Shape, 22, k);
        }
        let is_array = |v: u8| matches!(self.variables[v as usize].kind, Kind::Array(_));
        if numbers.iter().any(is_array) || !arrays.iter().all(is_array) {
            return refuse(Layer::Shape, 23, k);
        }
        let (first, second) = record.form.links();
        let fits = |link: u16| link == 0 || (link as usize > k && link as usize <= self.records.len());
        if !(fits(record.next) && fits(first) && fits(second)) {
            return refuse(Layer::Shape, 24, k);
        }
        if let Form::Oram { x, a } = record.form {
            if self.variables[x as usize].cells() != self.variables[a as usize].cells() {
                return refuse(Layer::Shape, 27, k);
            }
        }
        Ok(())
    }

    fn check_links(&self) -> Result<(), Refusal> {
        let mut counts = [0u16; 513];
        for record in &self.records {
            let (first, second) = record.form.links();
            for link in [first, second, record.next] {
                counts[link as usize] += 1;
            }
        }
        match (2..=self.records.len()).find(|k| counts[*k] != 1) {
            Some(k) => refuse(Layer::Shape, 25, k),
            None => Ok(()),
        }
    }

    /// The enclosing record and the depth of each record: links rise, so a record's place is known before it is met.
    fn places(&self) -> [(u16, u16); 513] {
        let mut places = [(0, 0); 513];
        places[1] = (0, 1);
        for (k, record) in self.records.iter().enumerate() {
            let (around, depth) = places[k + 1];
            let (first, second) = record.form.links();
            places[record.next as usize] = (around, depth);
            places[first as usize] = (k as u16 + 1, depth + 1);
            places[second as usize] = (k as u16 + 1, depth + 1);
        }
        places
    }

    fn broken_rule(&self, record: &Record, around: u8) -> Option<u8> {
        let of = |v: u8| self.variables[v as usize].label;
        let l = record.label;
        if around != P && around != l {
            return Some(30);
        }
        let (target, read) = match record.form {
            Form::Skip => return None,
            Form::Copy { x, a } => (x, of(a)),
            Form::Constant { x, .. } => (x, P),
            Form::Binary { x, a, b, .. } => (x, join(of(a), of(b))),
            Form::Fetch { x, a, b } => (x, join(of(a), of(b))),
            Form::Mux { x, a, b, c } => (x, join(of(a), join(of(b), of(c)))),
            Form::Store { x, a, b } => (x, join(of(a), of(b))),
            Form::If { a, .. } | Form::While { a, .. } => {
                return if of(a) != l {
                    Some(34)
                } else if of(a) == O {
                    Some(35)
                } else {
                    None
                };
            }
            Form::Declass { x, a } => {
                return if l != O {
                    Some(36)
                } else if of(a) != O || of(x) == O {
                    Some(37)
                } else {
                    None
                };
            }
            Form::Oram { x, a } => {
                return if l != O {
                    Some(36)
                } else if of(x) != O || of(a) == O {
                    Some(38)
                } else {
                    None
                };
            }
        };
        if of(target) != l {
            return Some(31);
        }
        if !flows(read, l) {
            return Some(32);
        }
        match record.form {
            Form::Fetch { a, b, .. } if !flows(of(b), of(a)) => Some(33),
            _ => None,
        }
    }

    /// The numbers of variables and of records.
    pub fn sizes(&self) -> (usize, usize) {
        (self.variables.len(), self.records.len())
    }

    fn check(&self) -> Result<(), Refusal> {
        if let Some(v) = self.variables.iter().position(|v| !knows(v.label)) {
            return refuse(Layer::Shape, 20, v);
        }
        for k in 1..=self.records.len() {
            self.check_record(k)?;
        }
        self.check_links()?;
        let places = self.places();
        if let Some(k) = (1..=self.records.len()).find(|k| places[*k].1 > 16) {
            return refuse(Layer::Shape, 26, k);
        }
        for (j, record) in self.records.iter().enumerate() {
            let around = match places[j + 1].0 {
                0 => P,
                k => self.records[k as usize - 1].label,
            };
            if let Some(rule) = self.broken_rule(record, around) {
                return refuse(Layer::Rule, rule, j + 1);
            }
        }
        Ok(())
    }
}

/// Reads and accepts a sheet.
pub fn accept(bytes: &[u8]) -> Result<Program, Refusal> {
    let program = read(bytes)?;
    program.check()?;
    Ok(program)
}

/// The numbers of variables and of records of an accepted sheet.
pub fn check(bytes: &[u8]) -> Result<(usize, usize), Refusal> {
    Ok(accept(bytes)?.sizes())
}

pub trait Bank {
    fn size(&self) -> usize;
    fn get(&self, i: usize) -> u32;
    fn put(&mut self, i: usize, value: u32);
}

pub struct FlatBank(pub Vec<u32>);

impl Bank for FlatBank {
    fn size(&self) -> usize {
        self.0.len()
    }

    fn get(&self, i: usize) -> u32 {
        self.0.get(i).copied().unwrap_or(0)
    }

    fn put(&mut self, i: usize, value: u32) {
        if let Some(word) = self.0.get_mut(i) {
            *word = value;
        }
    }
}

pub struct ShareBank {
    pub words: Vec<u32>,
    pub pad: u32,
}

impl Bank for ShareBank {
    fn size(&self) -> usize {
        self.words.len() / 2
    }

    fn get(&self, i: usize) -> u32 {
        match self.words.get(2 * i..2 * i + 2) {
            Some(pair) => pair[0] ^ pair[1],
            None => 0,
        }
    }

    fn put(&mut self, i: usize, value: u32) {
        if let Some(pair) = self.words.get_mut(2 * i..2 * i + 2) {
            pair[0] = self.pad;
            pair[1] = value ^ self.pad;
            self.pad = self.pad.wrapping_mul(1664525).wrapping_add(1013904223);
        }
    }
}

#[derive(Clone, Copy, PartialEq, Eq, Debug)]
pub enum Stop {
    Ended = 1,
    Spent = 2,
    Full = 3,
}

#[derive(Clone, Copy, PartialEq, Eq, Debug)]
pub struct Report {
    pub steps: u64,
    pub entries: usize,
    pub stop: Stop,
}

pub struct Session<B> {
    program: Program,
    bank: B,
    numbers: [u32; 64],
    starts: [u32; 65],
    stack: Vec<u16>,
    started: bool,
}

fn session_fault<T>(number: u8, place: u8) -> Result<T, Refusal> {
    refuse(Layer::Session, number, place as usize)
}

impl<B: Bank> Session<B> {
    pub fn open(program: Program, mut bank: B) -> Session<B> {
        let mut starts = [0; 65];
        let mut start = 0;
        for (v, variable) in program.variables.iter().enumerate() {
            starts[v] = start;
            start += variable.cells();
            starts[v + 1] = start;
        }
        for i in 0..start as usize {
            bank.put(i, 0);
        }
        Session { program, bank, numbers: [0; 64], starts, stack: vec![1], started: false }
    }

    fn too_small(&self) -> bool {
        self.bank.size() < self.starts[self.program.variables.len()] as usize
    }

    fn check_access(&self, party: u8, v: u8, index: u32) -> Result<(), Refusal> {
        if party >= 2 {
            return session_fault(42, party);
        }
        let Some(variable) = self.program.variables.get(v as usize) else {
            return session_fault(43, v);
        };
        let inside = match variable.kind {
            Kind::Number => index == 0,
            Kind::Array(n) => index < n as u32,
        };
        if !inside {
            return session_fault(43, v);
        }
        if !opens(variable.label, party) {
            return session_fault(44, v);
        }
        Ok(())
    }

    pub fn enter(&mut self, party: u8, v: u8, index: u32, value: u32) -> Result<(), Refusal> {
        if self.too_small() {
            return session_fault(40, 0);
        }
        if self.started {
            return session_fault(41, 0);
        }
        self.check_access(party, v, index)?;
        match self.program.variables[v as usize].kind {
            Kind::Number => self.numbers[v as usize] = value,
            Kind::Array(_) => {
                self.store(v, index, value);
            }
        }
        Ok(())
    }

    pub fn start(&mut self) -> Result<(), Refusal> {
        if self.too_small() {
            return session_fault(40, 0);
        }
        if self.started {
            return session_fault(41, 0);
        }
        self.started = true;
        Ok(())
    }

    pub fn look(&mut self, party: u8, v: u8, index: u32) -> Result<u32, Refusal> {
        if self.too_small() {
            return session_fault(40, 0);
        }
        self.check_access(party, v, index)?;
        Ok(match self.program.variables[v as usize].kind {
            Kind::Number => self.numbers[v as usize],
            Kind::Array(_) => self.fetch(v, index).0,
        })
    }

    fn cell(&self, v: u8, index: u32) -> usize {
        if index < self.program.variables[v as usize].cells() {
            self.starts[v as usize] as usize + index as usize
        } else {
            self.bank.size()
        }
    }

    // The mark of a fetch or a store: 1 where the index is outside the array.
    fn mark(&self, v: u8, index: u32) -> u8 {
        u8::from(index >= self.program.variables[v as usize].cells())
    }

    fn fetch(&self, v: u8, index: u32) -> (u32, u8) {
        (self.bank.get(self.cell(v, index)), self.mark(v, index))
    }

    fn store(&mut self, v: u8, index: u32, value: u32) -> u8 {
        let cell = self.cell(v, index);
        self.bank.put(cell, value);
        self.mark(v, index)
    }

    fn number(&self, v: u8) -> u32 {
        self.numbers[v as usize]
    }

    pub fn run(&mut self, limit: u64, tape: &mut [Entry]) -> Result<Report, Refusal> {
        if !self.started {
            return session_fault(45, 0);
        }
        if self.stack.is_empty() {
            return session_fault(46, 0);
        }
        if tape.len() < 6 {
            return session_fault(47, 0);
        }
        let (mut steps, mut at) = (0, 0);
        let stop = loop {
            if self.stack.is_empty() {
                break Stop::Ended;
            }
            if steps == limit {
                break Stop::Spent;
            }
            if tape.len() - at < 6 {
                break Stop::Full;
            }
            at += self.step(&mut tape[at..]);
            steps += 1;
        };
        Ok(Report { steps, entries: at, stop })
    }

    fn step(&mut self, tape: &mut [Entry]) -> usize {
        let top = self.stack.len() - 1;
        let n = self.stack[top];
        let record = self.program.records[n as usize - 1];
        let mut writer = Writer { tape, at: 0 };
        let (next, above) = self.act(n, &record, &mut writer);
        self.stack[top] = next;
        if above != 0 {
            self.stack.push(above);
        } else {
            while self.stack.last() == Some(&0) {
                self.stack.pop();
            }
            if self.stack.is_empty() {
                writer.note(Entry { kind: 8, label: P, ..Entry::default() });
            }
        }
        writer.at
    }

    fn act(&mut self, n: u16, record: &Record, out: &mut Writer) -> (u16, u16) {
        let label = record.label;
        if !matches!(record.form, Form::Skip) {
            out.note(Entry { kind: 1, label, record: n, ..Entry::default() });
        }
        match record.form {
            Form::Skip => {}
            Form::Copy { x, a } => {
                let value = self.read(label, a, out);
                self.write(label, x, value, out);
            }
            Form::Constant { x, value } => self.write(label, x, value, out),
            Form::Binary { x, a, b, op } => {
                let left = self.read(label, a, out);
                let right = self.read(label, b, out);
                self.write(label, x, apply(op, left, right), out);
            }
            Form::Fetch { x, a, b } => {
                let index = self.read(label, b, out);
                let (value, mark) = self.fetch(a, index);
                out.note(Entry { kind: 3, label: self.carried(label, a), record: 0, variable: a, mark, index, value });
                self.write(label, x, value, out);
            }
            Form::Mux { x, a, b, c } => {
                let test = self.read(label, a, out);
                let left = self.read(label, b, out);
                let right = self.read(label, c, out);
                self.write(label, x, if test == 0 { left } else { right }, out);
            }
            Form::Store { x, a, b } => {
                let index = self.read(label, a, out);
                let value = self.read(label, b, out);
                let mark = self.store(x, index, value);
                out.note(Entry { kind: 5, label, record: 0, variable: x, mark, index, value });
            }
            Form::If { a, then, other } => {
                let value = self.read(label, a, out);
                return (record.next, if value == 1 { then } else { other });
            }
            Form::While { a, body } => {
                let value = self.read(label, a, out);
                if value == 1 {
                    return (n, body);
                }
            }
            Form::Declass { x, a } => {
                let value = self.read(label, a, out);
                self.numbers[x as usize] = value;
                let label = self.program.variables[x as usize].label;
                out.note(Entry { kind: 7, label, variable: x, value, ..Entry::default() });
            }
            Form::Oram { x, a } => {
                for i in 0..self.program.variables[a as usize].cells() {
                    let (value, _) = self.fetch(a, i);
                    self.store(x, i, value);
                }
                let label = self.program.variables[a as usize].label;
                out.note(Entry { kind: 6, label, variable: a, ..Entry::default() });
                out.note(Entry { kind: 6, label: O, variable: x, ..Entry::default() });
            }
        }
        (record.next, 0)
    }

    fn carried(&self, label: u8, v: u8) -> u8 {
        if label == O { self.program.variables[v as usize].label } else { label }
    }

    fn read(&self, label: u8, v: u8, out: &mut Writer) -> u32 {
        let value = self.number(v);
        out.note(Entry { kind: 2, label: self.carried(label, v), variable: v, value, ..Entry::default() });
        value
    }

    fn write(&mut self, label: u8, v: u8, value: u32, out: &mut Writer) {
        self.numbers[v as usize] = value;
        out.note(Entry { kind: 4, label, variable: v, value, ..Entry::default() });
    }
}

struct Writer<'a> {
    tape: &'a mut [Entry],
    at: usize,
}

impl Writer<'_> {
    fn note(&mut self, entry: Entry) {
        self.tape[self.at] = entry;
        self.at += 1;
    }
}

fn apply(op: Op, a: u32, b: u32) -> u32 {
    match op {
        Op::Sum => a.wrapping_add(b),
        Op::Difference => a.wrapping_sub(b),
        Op::Product => a.wrapping_mul(b),
        Op::Equal => (a == b) as u32,
        Op::Less => (a < b) as u32,
        Op::And => a & b,
        Op::Or => a | b,
        Op::Xor => a ^ b,
    }
}

fn pick_entry(party: u8, e: &Entry) -> Option<Entry> {
    if opens(e.label, party) {
        return Some(*e);
    }
    if e.label != O {
        return None;
    }
    match e.kind {
        1 | 6 | 8 => Some(*e),
        2..=5 => Some(Entry { kind: 6, label: O, variable: e.variable, ..Entry::default() }),
        _ => None,
    }
}

pub fn pick(party: u8, tape: &[Entry], out: &mut [Entry]) -> Result<usize, Refusal> {
    if party >= 2 {
        return refuse(Layer::Log, 42, party as usize);
    }
    if let Some(i) = tape.iter().position(|e| !(1..=8).contains(&e.kind) || !knows(e.label)) {
        return refuse(Layer::Log, 49, i);
    }
    let needed = tape.iter().filter(|e| pick_entry(party, e).is_some()).count();
    if needed > out.len() {
        return refuse(Layer::Log, 48, needed);
    }
    for (place, kept) in out.iter_mut().zip(tape.iter().filter_map(|e| pick_entry(party, e))) {
        *place = kept;
    }
    Ok(needed)
}
