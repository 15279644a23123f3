//! The yardstick: `confirm DESIGN STIM [EXPECT]` as plain Rust over `Vec`s, with the same checks and the same answers, and no proof.
//! Built by `bench/run` with `rustc -O`.

use std::io::Write;
use std::process::exit;

struct Latch {
    var: usize,
    next: usize,
    reset: Option<bool>,
}

struct Design {
    vars: usize,
    inputs: Vec<usize>,
    latches: Vec<Latch>,
    bads: Vec<usize>,
    constraints: Vec<usize>,
    gates: Vec<[usize; 3]>,
}

struct Header([u64; 9]);

struct Reader<'a> {
    bytes: &'a [u8],
    at: usize,
}

fn place(word: &str, at: usize) -> String {
    format!("{word} at {at}")
}

impl<'a> Reader<'a> {
    /// A row of one to nine numbers and its LF.
    fn row(&mut self) -> Option<([u64; 9], usize)> {
        let mut row = [0; 9];
        let mut at = self.at;
        for count in 0..9 {
            let start = at;
            let mut number = 0u64;
            while at < self.bytes.len() && self.bytes[at].is_ascii_digit() {
                number = number.saturating_mul(10).saturating_add((self.bytes[at] - b'0') as u64);
                at += 1;
            }
            if at == start {
                return None;
            }
            row[count] = number;
            match self.bytes.get(at) {
                Some(b'\n') => {
                    self.at = at + 1;
                    return Some((row, count + 1));
                }
                Some(b' ') => at += 1,
                _ => return None,
            }
        }
        None
    }

    /// A line of a section.
    fn line(&mut self) -> Result<([u64; 9], usize), String> {
        self.row().ok_or_else(|| {
            if self.bytes[self.at..].contains(&b'\n') {
                place("4 line", self.at)
            } else {
                place("10 short", self.bytes.len())
            }
        })
    }
}

fn header(reader: &mut Reader, binary: bool) -> Result<Header, String> {
    let fault = || "1 header at 0".to_string();
    if !reader.bytes.starts_with(if binary { b"aig " } else { b"aag " }) {
        return Err(fault());
    }
    reader.at = 4;
    let (row, count) = reader.row().ok_or_else(fault)?;
    if count < 5 {
        return Err(fault());
    }
    let [vars, inputs, latches, outputs, gates, bads, constraints, justice, fairness] = row;
    if vars > 500_000 {
        return Err("2 too large vars".into());
    }
    if justice > 0 || fairness > 0 {
        return Err("3 liveness".into());
    }
    let sum = inputs as u128 + latches as u128 + gates as u128;
    if (vars as u128) < sum || (binary && vars as u128 != sum) {
        return Err(fault());
    }
    if (if bads == 0 { outputs } else { bads }) > 20_000 {
        return Err("2 too large props".into());
    }
    if outputs > 500_000 || constraints > 500_000 {
        return Err("2 too large lines".into());
    }
    Ok(Header(row))
}

/// Which variables are defined.
struct Seen(Vec<bool>);

impl Seen {
    fn define(&mut self, lit: u64, at: usize, range: bool) -> Result<usize, String> {
        let vars = self.0.len() as u64 - 1;
        if lit % 2 == 1 || lit < 2 || lit > 2 * vars || !range {
            return Err(place("5 range", at));
        }
        let var = (lit / 2) as usize;
        if std::mem::replace(&mut self.0[var], true) {
            return Err(place("6 twice", at));
        }
        Ok(var)
    }
}

fn literals(reader: &mut Reader, count: u64, vars: u64) -> Result<Vec<usize>, String> {
    let mut found = Vec::new();
    for _ in 0..count {
        let at = reader.at;
        let (row, numbers) = reader.line()?;
        if numbers != 1 {
            return Err(place("4 line", at));
        }
        if row[0] > 2 * vars + 1 {
            return Err(place("5 range", at));
        }
        found.push(row[0] as usize);
    }
    Ok(found)
}

fn latches(reader: &mut Reader, count: u64, vars: u64, seen: &mut Seen) -> Result<Vec<Latch>, String> {
    let mut found = Vec::new();
    for _ in 0..count {
        let at = reader.at;
        let (row, numbers) = reader.line()?;
        if numbers != 2 && numbers != 3 {
            return Err(place("4 line", at));
        }
        let [lit, next, reset, ..] = row;
        let in_range = next <= 2 * vars + 1 && (reset < 2 || reset == lit);
        let var = seen.define(lit, at, in_range)?;
        let reset = if reset < 2 { Some(reset == 1) } else { None };
        found.push(Latch { var, next: next as usize, reset });
    }
    Ok(found)
}

fn gates(reader: &mut Reader, count: u64, vars: u64, seen: &mut Seen) -> Result<Vec<[usize; 3]>, String> {
    let mut found = Vec::new();
    for _ in 0..count {
        let at = reader.at;
        let (row, numbers) = reader.line()?;
        if numbers != 3 {
            return Err(place("4 line", at));
        }
        let var = seen.define(row[0], at, row[1] <= 2 * vars + 1 && row[2] <= 2 * vars + 1)?;
        found.push([var, row[1] as usize, row[2] as usize]);
    }
    Ok(found)
}

/// The latch lines of the binary form, where variables come in order.
fn binary_latches(reader: &mut Reader, count: u64, vars: u64, first: usize) -> Result<Vec<Latch>, String> {
    let mut found = Vec::new();
    for var in first..first + count as usize {
        let at = reader.at;
        let (row, numbers) = reader.line()?;
        if numbers != 1 && numbers != 2 {
            return Err(place("4 line", at));
        }
        let [next, reset, ..] = row;
        if next > 2 * vars + 1 || !(reset < 2 || reset == 2 * var as u64) {
            return Err(place("5 range", at));
        }
        let reset = if reset < 2 { Some(reset == 1) } else { None };
        found.push(Latch { var, next: next as usize, reset });
    }
    Ok(found)
}

/// The literal that is below another one by a delta of one to five bytes.
fn below(reader: &mut Reader, above: usize, least: usize) -> Result<usize, String> {
    let at = reader.at;
    let mut delta = 0;
    for group in 0..5 {
        let Some(byte) = reader.bytes.get(reader.at) else {
            return Err(place("10 short", reader.bytes.len()));
        };
        reader.at += 1;
        delta |= ((byte & 127) as usize) << (7 * group);
        if *byte < 128 {
            return if delta < least || delta > above {
                Err(place("11 order", at))
            } else {
                Ok(above - delta)
            };
        }
    }
    Err(place("4 line", at))
}

fn binary_gates(reader: &mut Reader, count: u64, first: usize) -> Result<Vec<[usize; 3]>, String> {
    let mut found = Vec::new();
    for var in first..first + count as usize {
        let left = below(reader, 2 * var, 1)?;
        let right = below(reader, left, 0)?;
        found.push([var, left, right]);
    }
    Ok(found)
}

fn read_binary(bytes: &[u8]) -> Result<Design, String> {
    if bytes.len() > 67_108_864 {
        return Err("2 too large file".into());
    }
    let mut reader = Reader { bytes, at: 0 };
    let head = header(&mut reader, true)?;
    let [vars, input_count, latch_count, output_count, gate_count, bad_count, constraint_count, ..] = head.0;
    let inputs: Vec<usize> = (1..=input_count as usize).collect();
    let latches = binary_latches(&mut reader, latch_count, vars, inputs.len() + 1)?;
    let outputs = literals(&mut reader, output_count, vars)?;
    let bads = literals(&mut reader, bad_count, vars)?;
    let constraints = literals(&mut reader, constraint_count, vars)?;
    let gates = binary_gates(&mut reader, gate_count, inputs.len() + latches.len() + 1)?;
    symbols(&mut reader, &head)?;
    let bads = if bad_count == 0 { outputs } else { bads };
    Ok(Design { vars: vars as usize, inputs, latches, bads, constraints, gates })
}

/// The gates with right sides first, or the least gate from which a cycle can be reached.
fn ordered(gates: Vec<[usize; 3]>, vars: usize) -> Result<Vec<[usize; 3]>, String> {
    let mut gate_of = vec![usize::MAX; vars + 1];
    for (at, gate) in gates.iter().enumerate() {
        gate_of[gate[0]] = at;
    }
    let mut waits = vec![0u8; gates.len()];
    let mut first = vec![usize::MAX; gates.len()];
    let mut next = vec![usize::MAX; 2 * gates.len()];
    for (at, gate) in gates.iter().enumerate() {
        for side in 0..2 {
            let right = gate_of[gate[1 + side] / 2];
            if right != usize::MAX {
                waits[at] += 1;
                next[2 * at + side] = first[right];
                first[right] = 2 * at + side;
            }
        }
    }
    let mut order: Vec<usize> = (0..gates.len()).filter(|at| waits[*at] == 0).collect();
    let mut done = 0;
    while done < order.len() {
        let mut link = first[order[done]];
        done += 1;
        while link != usize::MAX {
            waits[link / 2] -= 1;
            if waits[link / 2] == 0 {
                order.push(link / 2);
            }
            link = next[link];
        }
    }
    if order.len() < gates.len() {
        let left = (0..gates.len()).filter(|at| waits[*at] > 0).map(|at| gates[at][0]).min().unwrap();
        return Err(format!("8 cycle var {left}"));
    }
    Ok(order.into_iter().map(|at| gates[at]).collect())
}

fn symbols(reader: &mut Reader, header: &Header) -> Result<(), String> {
    let [_, inputs, latches, outputs, _, bads, constraints, justice, fairness] = header.0;
    while reader.at < reader.bytes.len() {
        let rest = &reader.bytes[reader.at..];
        let len = rest.iter().position(|b| *b == b'\n').unwrap_or(rest.len());
        let line = &rest[..len];
        if line.first() == Some(&b'c') && !line.get(1).is_some_and(|b| b.is_ascii_digit()) {
            return Ok(());
        }
        if !line.is_empty() {
            let count = match line[0] {
                b'i' => inputs,
                b'l' => latches,
                b'o' => outputs,
                b'b' => bads,
                b'c' => constraints,
                b'j' => justice,
                b'f' => fairness,
                _ => 0,
            };
            let digits = line[1..].iter().take_while(|b| b.is_ascii_digit()).count();
            let number = line[1..1 + digits]
                .iter()
                .fold(0u64, |n, b| n.saturating_mul(10).saturating_add((b - b'0') as u64));
            if digits == 0 || number >= count || line.get(1 + digits) != Some(&b' ') {
                return Err(place("9 symbol", reader.at));
            }
        }
        reader.at += (len + 1).min(rest.len());
    }
    Ok(())
}

fn read_design(bytes: &[u8]) -> Result<Design, String> {
    if bytes.starts_with(b"aig") {
        return read_binary(bytes);
    }
    if bytes.len() > 67_108_864 {
        return Err("2 too large file".into());
    }
    let mut reader = Reader { bytes, at: 0 };
    let head = header(&mut reader, false)?;
    let [vars, input_count, latch_count, output_count, gate_count, bad_count, constraint_count, ..] = head.0;
    let mut seen = Seen(vec![false; vars as usize + 1]);
    let mut inputs = Vec::new();
    for _ in 0..input_count {
        let at = reader.at;
        let (row, numbers) = reader.line()?;
        if numbers != 1 {
            return Err(place("4 line", at));
        }
        inputs.push(seen.define(row[0], at, true)?);
    }
    let latches = latches(&mut reader, latch_count, vars, &mut seen)?;
    let outputs = literals(&mut reader, output_count, vars)?;
    let bads = literals(&mut reader, bad_count, vars)?;
    let constraints = literals(&mut reader, constraint_count, vars)?;
    let gates = gates(&mut reader, gate_count, vars, &mut seen)?;
    seen.0[0] = true;
    let uses = latches.iter().map(|l| l.next).chain(outputs.iter().copied()).chain(bads.iter().copied());
    let uses = uses.chain(constraints.iter().copied()).chain(gates.iter().flat_map(|g| [g[1], g[2]]));
    if let Some(var) = uses.map(|lit| lit / 2).filter(|var| !seen.0[*var]).min() {
        return Err(format!("7 undefined var {var}"));
    }
    let gates = ordered(gates, vars as usize)?;
    symbols(&mut reader, &head)?;
    let bads = if bad_count == 0 { outputs } else { bads };
    Ok(Design { vars: vars as usize, inputs, latches, bads, constraints, gates })
}

fn bits(line: &[u8], width: usize, number: usize) -> Result<Vec<bool>, String> {
    let mut row = Vec::with_capacity(line.len());
    for byte in line {
        match byte {
            b'0' | b'x' => row.push(false),
            b'1' => row.push(true),
            _ => return Err(format!("1 line line {number}")),
        }
    }
    if row.len() != width {
        return Err(format!("3 width line {number}"));
    }
    Ok(row)
}

type Stimulus = (usize, Vec<bool>, Vec<Vec<bool>>);

fn read_stimulus(bytes: &[u8], design: &Design) -> Result<Stimulus, String> {
    if bytes.len() > 67_108_864 {
        return Err("5 too large".into());
    }
    let mut rest = bytes;
    let mut number = 0;
    let mut next = || -> Result<(usize, &[u8], bool), String> {
        number += 1;
        match rest.iter().position(|b| *b == b'\n') {
            Some(at) => {
                let line = &rest[..at];
                rest = &rest[at + 1..];
                Ok((number, line, true))
            }
            None if rest == b"." => Ok((number, rest, false)),
            None => Err(format!("4 short line {number}")),
        }
    };
    let form = |number: usize| format!("1 line line {number}");
    let (at, line, _) = next()?;
    if line != b"1" {
        return Err(form(at));
    }
    let (at, line, _) = next()?;
    if line.len() < 2 || line[0] != b'b' || !line[1..].iter().all(u8::is_ascii_digit) {
        return Err(form(at));
    }
    let prop = line[1..].iter().fold(0u64, |n, b| n.saturating_mul(10).saturating_add((b - b'0') as u64));
    if prop >= design.bads.len() as u64 {
        return Err(format!("2 unknown line {at}"));
    }
    let (at, line, _) = next()?;
    let first = bits(line, design.latches.len(), at)?;
    let mut rows = Vec::new();
    loop {
        let (at, line, _) = next()?;
        if line == b"." {
            if rows.is_empty() {
                return Err(form(at));
            }
            return Ok((prop as usize, first, rows));
        }
        if rows.len() == 1_000_000 {
            return Err("5 too large".into());
        }
        rows.push(bits(line, design.inputs.len(), at)?);
    }
}

/// For each property whether it is expected to hold.
fn read_expectations(bytes: &[u8], design: &Design) -> Result<Vec<bool>, String> {
    if bytes.len() > 4_194_304 {
        return Err("4 too large".into());
    }
    let mut lines = bytes.split(|b| *b == b'\n');
    if lines.next() != Some(b"expect 1") {
        return Err("1 line line 1".into());
    }
    let mut expected = vec![true; design.bads.len()];
    let mut named = vec![false; design.bads.len()];
    for (at, line) in lines.enumerate() {
        let number = at + 2;
        if line.is_empty() || line[0] == b'#' {
            continue;
        }
        let (holds, digits) = match (line.strip_prefix(b"hold b"), line.strip_prefix(b"fail b")) {
            (Some(digits), _) => (true, digits),
            (_, Some(digits)) => (false, digits),
            _ => return Err(format!("1 line line {number}")),
        };
        if digits.is_empty() || !digits.iter().all(u8::is_ascii_digit) {
            return Err(format!("1 line line {number}"));
        }
        let prop = digits.iter().fold(0usize, |n, b| n.saturating_mul(10).saturating_add((b - b'0') as usize));
        if prop >= named.len() {
            return Err(format!("2 unknown line {number}"));
        }
        if std::mem::replace(&mut named[prop], true) {
            return Err(format!("3 twice line {number}"));
        }
        expected[prop] = holds;
    }
    Ok(expected)
}

fn confirm(design: &Design, expected: &[bool], (prop, first, rows): &Stimulus) -> (String, i32) {
    for (at, latch) in design.latches.iter().enumerate() {
        if latch.reset.is_some_and(|bit| bit != first[at]) {
            return (format!("not confirmed: start latch {at}"), 1);
        }
    }
    let mut values = vec![false; design.vars + 1];
    let mut state = first.clone();
    let mut broken = None;
    let mut constraint = None;
    for (step, row) in rows.iter().enumerate() {
        for (var, bit) in design.inputs.iter().zip(row) {
            values[*var] = *bit;
        }
        for (latch, bit) in design.latches.iter().zip(&state) {
            values[latch.var] = *bit;
        }
        for [var, left, right] in &design.gates {
            let left = values[left / 2] != (left % 2 == 1);
            let right = values[right / 2] != (right % 2 == 1);
            values[*var] = left && right;
        }
        let value = |lit: usize| values[lit / 2] != (lit % 2 == 1);
        if constraint.is_none() && design.constraints.iter().any(|lit| !value(*lit)) {
            constraint = Some(step);
        }
        if broken.is_none() && step + 1 < rows.len() {
            let mut bads = design.bads.iter().zip(expected);
            broken = bads.position(|(lit, holds)| *holds && value(*lit)).map(|prop| (prop, step));
        }
        for (latch, bit) in design.latches.iter().zip(state.iter_mut()) {
            *bit = value(latch.next);
        }
    }
    if let Some(step) = constraint {
        return (format!("not confirmed: constraint at step {step}"), 1);
    }
    let bad = design.bads[*prop];
    if values[bad / 2] == (bad % 2 == 1) {
        return ("not confirmed: not bad".into(), 1);
    }
    match broken {
        Some((prop, step)) => (format!("not confirmed: b{prop} broke at step {step}"), 1),
        None => (format!("confirmed b{prop} steps {}", rows.len()), 0),
    }
}

fn replay(design: &str, stim: &str, expect: Option<&String>) -> Result<(String, i32), (String, i32)> {
    let read = |name: &str| std::fs::read(name).map_err(|_| ("fault: outside".to_string(), 5));
    let fault = |file: &str, words: String| (format!("fault: {file} {words}"), 3);
    let design = read_design(&read(design)?).map_err(|words| fault("design", words))?;
    let stimulus = read_stimulus(&read(stim)?, &design).map_err(|words| fault("stimulus", words))?;
    let expected = match expect {
        Some(name) => read_expectations(&read(name)?, &design).map_err(|words| fault("expect", words))?,
        None => vec![true; design.bads.len()],
    };
    Ok(confirm(&design, &expected, &stimulus))
}

fn run(words: &[String]) -> (String, i32) {
    match words {
        [command, names @ ..]
            if command == "confirm"
                && (names.len() == 2 || names.len() == 3)
                && !names.iter().any(|name| name.starts_with('-')) =>
        {
            replay(&names[0], &names[1], names.get(2)).unwrap_or_else(|fault| fault)
        }
        _ => ("fault: usage".into(), 4),
    }
}

fn main() {
    let words: Vec<String> = std::env::args().skip(1).collect();
    let (line, status) = run(&words);
    let written = writeln!(std::io::stdout(), "{line}");
    exit(if written.is_ok() { status } else { 5 });
}
