//! The yardstick of the checker: `check_log CLAUSES LOG` and `check_closed DESIGN CLAUSES PROOFS` as plain Rust over `Vec`s, with
//! the same checks and the same answers, and no proof. Built by `bench/run` with `rustc -O`.

use std::process::exit;

const VARS: usize = 1_048_576;

struct Line {
    clause: Vec<u32>,
    hints: Vec<u32>,
}

/// Numbers, each behind a space, in canonical digits.
fn numbers(bytes: &[u8], at: &mut usize) -> Option<Vec<u32>> {
    let mut found = Vec::new();
    while bytes.get(*at) == Some(&b' ') && bytes.get(*at + 1).is_some_and(u8::is_ascii_digit) {
        let start = *at + 1;
        let mut end = start;
        let mut number = 0u64;
        while bytes.get(end).is_some_and(u8::is_ascii_digit) {
            number = number.saturating_mul(10).saturating_add((bytes[end] - b'0') as u64);
            end += 1;
        }
        if number > u32::MAX as u64 || (bytes[start] == b'0' && end > start + 1) {
            return None;
        }
        found.push(number as u32);
        *at = end;
    }
    Some(found)
}

fn line(bytes: &[u8], at: &mut usize) -> Option<Line> {
    let clause = numbers(bytes, at)?;
    if !bytes[*at..].starts_with(b" ;") || !clause.windows(2).all(|pair| pair[0] < pair[1]) {
        return None;
    }
    *at += 2;
    let hints = numbers(bytes, at)?;
    if bytes.get(*at) != Some(&b'\n') {
        return None;
    }
    *at += 1;
    Some(Line { clause, hints })
}

fn lines(name: &str) -> Option<Vec<Line>> {
    let bytes = std::fs::read(name).ok()?;
    let mut at = 0;
    let mut found = Vec::new();
    while at < bytes.len() {
        found.push(line(&bytes, &mut at)?);
    }
    Some(found)
}

/// The hint at which a line is refused, if it is. The values are left as they were.
fn refusal(values: &mut [bool], trail: &mut Vec<u32>, clauses: &[Vec<u32>], line: &Line) -> Option<u32> {
    let fits = line.clause.iter().all(|lit| ((lit / 2) as usize) < VARS);
    if !fits || line.clause.windows(2).any(|pair| pair[0] ^ 1 == pair[1]) {
        return Some(0);
    }
    for lit in &line.clause {
        values[(lit ^ 1) as usize] = true;
        trail.push(lit ^ 1);
    }
    let mut answer = Some(line.hints.len() as u32);
    for (at, hint) in line.hints.iter().enumerate() {
        let clause = clauses.get(*hint as usize);
        let mut open = clause.into_iter().flatten().filter(|lit| !values[(**lit ^ 1) as usize]);
        let (first, second) = (open.next(), open.next());
        let refused = match (clause, first, second) {
            (None, _, _) | (_, Some(_), Some(_)) => true,
            (_, Some(lit), None) => {
                let is_true = values[*lit as usize];
                if !is_true {
                    values[*lit as usize] = true;
                    trail.push(*lit);
                }
                is_true
            }
            (_, None, _) if at + 1 == line.hints.len() => {
                answer = None;
                break;
            }
            (_, None, _) => true,
        };
        if refused {
            answer = Some(at as u32);
            break;
        }
    }
    for lit in trail.drain(..) {
        values[lit as usize] = false;
    }
    answer
}

/// The lines of a design without inputs, outputs, constraints and undefined variables, as numbers.
fn design(name: &str) -> Option<Vec<Vec<u32>>> {
    let text = std::fs::read_to_string(name).ok()?;
    let numbers = |line: &str| line.trim_start_matches("aag ").split(' ').map(|word| word.parse().ok()).collect();
    text.lines().map(numbers).collect()
}

fn sorted(mut clause: Vec<u32>) -> Vec<u32> {
    clause.sort_unstable();
    clause.dedup();
    clause
}

/// What the clauses say of a step: the constant, the gates, and that each property holds.
fn step_clauses(gates: &[Vec<u32>], bads: &[Vec<u32>]) -> Vec<Vec<u32>> {
    let mut clauses = vec![vec![1]];
    for gate in gates {
        clauses.push(sorted(vec![gate[0] ^ 1, gate[1]]));
        clauses.push(sorted(vec![gate[0] ^ 1, gate[2]]));
        clauses.push(sorted(vec![gate[0], gate[1] ^ 1, gate[2] ^ 1]));
    }
    clauses.extend(bads.iter().map(|bad| vec![bad[0] ^ 1]));
    clauses
}

/// Whether each clause starts and is kept from step to step, as its proof shows, which is one line.
fn closed(design: &[Vec<u32>], candidates: &[Line], proofs: &[Line]) -> Option<bool> {
    let [_, inputs, latches, _, gates, bads] = design.first()?[..] else {
        return None;
    };
    let (latch_lines, rest) = design[1 + inputs as usize..].split_at(latches as usize);
    let (bad_lines, gate_lines) = rest.split_at(bads as usize);
    let mut latch_of = vec![None; VARS];
    for latch in latch_lines {
        latch_of[latch[0] as usize / 2] = Some((latch[1], latch.get(2).copied().unwrap_or(0)));
    }
    let mut clauses = step_clauses(&gate_lines[..gates as usize], bad_lines);
    clauses.extend(candidates.iter().map(|line| line.clause.clone()));
    let (mut values, mut trail) = (vec![false; 2 * VARS], Vec::new());
    for (candidate, proof) in candidates.iter().zip(proofs) {
        let mut starts = false;
        let mut under = Vec::new();
        for lit in &candidate.clause {
            let (next, reset) = latch_of[*lit as usize / 2]?;
            starts |= reset < 2 && reset != lit % 2;
            under.push(next ^ (lit % 2) ^ 1);
        }
        if !starts || refusal(&mut values, &mut trail, &clauses, proof).is_some() {
            return Some(false);
        }
        clauses.push(proof.clause.clone());
        let is_false = |clause: &Vec<u32>| clause.iter().all(|lit| under.contains(&(lit ^ 1)));
        if !clauses.iter().rev().any(is_false) {
            return Some(false);
        }
        clauses.pop();
    }
    Some(candidates.len() <= proofs.len())
}

fn main() {
    let words: Vec<String> = std::env::args().skip(1).collect();
    if let [name, clauses, proofs] = &words[..] {
        match (design(name), lines(clauses), lines(proofs)) {
            (Some(design), Some(clauses), Some(proofs)) if closed(&design, &clauses, &proofs) == Some(true) => {
                println!("closed {}", clauses.len());
            }
            _ => exit(3),
        }
        return;
    }
    let (Some(list), Some(log)) = (lines(&words[0]), lines(&words[1])) else {
        exit(3);
    };
    let mut clauses: Vec<Vec<u32>> = list.into_iter().map(|line| line.clause).collect();
    let mut values = vec![false; 2 * VARS];
    let mut trail = Vec::new();
    let mut accepted = 0;
    for line in log {
        if let Some(hint) = refusal(&mut values, &mut trail, &clauses, &line) {
            println!("refused line {accepted} at hint {hint}");
            exit(1);
        }
        clauses.push(line.clause);
        accepted += 1;
    }
    println!("accepted {accepted}");
}
