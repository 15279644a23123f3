//! The yardstick of reports: `check_report REPORT` as plain Rust over `Vec`s, with the same checks and the same answers, and no proof.
//! Built by `bench/run` with `rustc -O`.

use std::fmt::Write as _;
use std::io::Write as _;
use std::process::exit;

#[derive(Clone, Copy)]
enum Mark {
    Proved,
    Fails,
    Budget(u64),
    Cancelled,
}

enum What {
    DrawNone,
    Draw(u32),
    Import,
    Publish,
    Settle(u32, Mark, Option<Mark>),
    Cancel(u32, bool),
    GiveUp(u32),
    GoOn(u32),
    Had(u32, Mark),
}

struct Entry {
    seat: u32,
    what: What,
    upto: u32,
}

struct Stimulus {
    prop: u32,
    start: Vec<bool>,
    rows: Vec<Vec<bool>>,
}

struct Report {
    sizes: [u32; 6],
    props: Vec<(bool, Mark)>,
    clauses: Vec<Vec<u32>>,
    stimuli: Vec<Stimulus>,
    joined: bool,
    set: Vec<u32>,
    journal: Option<Vec<Entry>>,
}

struct Bytes<'a> {
    bytes: &'a [u8],
    at: usize,
}

impl Bytes<'_> {
    /// Goes behind the word, if the bytes go on with it.
    fn word(&mut self, word: &[u8]) -> Option<()> {
        self.bytes[self.at..].starts_with(word).then(|| self.at += word.len())
    }

    fn is(&mut self, word: &[u8]) -> bool {
        self.word(word).is_some()
    }

    /// A number in canonical digits.
    fn wide(&mut self) -> Option<u64> {
        let start = self.at;
        let mut number = 0u64;
        while let Some(digit) = self.bytes.get(self.at).filter(|byte| byte.is_ascii_digit()) {
            number = number.checked_mul(10)?.checked_add((digit - b'0') as u64)?;
            self.at += 1;
        }
        (self.at > start && (self.bytes[start] != b'0' || self.at == start + 1)).then_some(number)
    }

    fn number(&mut self) -> Option<u32> {
        self.wide()?.try_into().ok()
    }

    fn prop(&mut self, props: u32) -> Option<u32> {
        self.word(b"b")?;
        self.number().filter(|prop| *prop < props)
    }

    fn mark(&mut self) -> Option<Mark> {
        if self.is(b"proved") {
            Some(Mark::Proved)
        } else if self.is(b"fails") {
            Some(Mark::Fails)
        } else if self.is(b"unknown cancelled") {
            Some(Mark::Cancelled)
        } else {
            self.word(b"unknown budget ")?;
            Some(Mark::Budget(self.wide()?))
        }
    }

    fn row(&mut self, width: u32) -> Option<Vec<bool>> {
        let row = self.bytes.get(self.at..self.at + width as usize)?;
        if !row.iter().all(|byte| matches!(byte, b'0' | b'1')) {
            return None;
        }
        self.at += width as usize;
        self.word(b"\n")?;
        Some(row.iter().map(|byte| *byte == b'1').collect())
    }

    fn clause(&mut self, variables: u32) -> Option<Vec<u32>> {
        let mut lits = Vec::new();
        while !self.is(b"\n") {
            if !lits.is_empty() {
                self.word(b" ")?;
            }
            let lit = self.number()?;
            let ascends = lits.last().is_none_or(|last| *last < lit);
            if !ascends || lit < 2 || lit as u64 > 2 * variables as u64 + 1 {
                return None;
            }
            lits.push(lit);
        }
        Some(lits)
    }

    fn stimulus(&mut self, prop: u32, sizes: &[u32; 6]) -> Option<Stimulus> {
        self.word(format!("stimulus b{prop}\n1\nb{prop}\n").as_bytes())?;
        let start = self.row(sizes[2])?;
        let mut rows = vec![self.row(sizes[1])?];
        while !self.is(b".\n") {
            rows.push(self.row(sizes[1])?);
        }
        Some(Stimulus { prop, start, rows })
    }

    fn what(&mut self, props: u32) -> Option<What> {
        if self.is(b"draw none") {
            return Some(What::DrawNone);
        } else if self.is(b"draw ") {
            return Some(What::Draw(self.prop(props)?));
        } else if self.is(b"import") {
            return Some(What::Import);
        } else if self.is(b"publish") {
            return Some(What::Publish);
        } else if self.is(b"settle ") {
            let prop = self.prop(props)?;
            self.word(b" ")?;
            let mark = self.mark()?;
            let had = if self.is(b" had ") { Some(self.mark()?) } else { None };
            return Some(What::Settle(prop, mark, had));
        } else if self.is(b"cancel ") {
            let prop = self.prop(props)?;
            let cancelled = self.is(b" yes");
            return if cancelled { Some(What::Cancel(prop, true)) } else { self.word(b" no").map(|_| What::Cancel(prop, false)) };
        }
        self.word(b"giveup ")?;
        let prop = self.prop(props)?;
        if self.is(b" yes") {
            Some(What::GiveUp(prop))
        } else if self.is(b" goon") {
            Some(What::GoOn(prop))
        } else {
            self.word(b" had ")?;
            Some(What::Had(prop, self.mark()?))
        }
    }

    fn journal(&mut self, props: u32, clauses: usize) -> Option<Vec<Entry>> {
        let count = self.number()?;
        self.word(b"\n")?;
        let mut journal = Vec::new();
        let mut before = 0;
        for _ in 0..count {
            let seat = self.number()?;
            self.word(b" ")?;
            let what = self.what(props)?;
            self.word(b" at ")?;
            let upto = self.number()?;
            let publishes = matches!(what, What::Publish | What::Settle(_, Mark::Proved, None));
            if upto < before || (upto > before && !publishes) || upto as usize > clauses {
                return None;
            }
            self.word(b"\n")?;
            before = upto;
            journal.push(Entry { seat, what, upto });
        }
        (before as usize == clauses).then_some(journal)
    }

    fn report(&mut self) -> Option<Report> {
        self.word(b"jasign 1\ndesign")?;
        let mut sizes = [0; 6];
        for size in &mut sizes {
            self.word(b" ")?;
            *size = self.number()?;
        }
        self.word(b"\n")?;
        let mut props = Vec::new();
        for prop in 0..sizes[4] {
            self.word(format!("b{prop} ").as_bytes())?;
            let holds = self.is(b"hold ");
            if !holds {
                self.word(b"fail ")?;
            }
            props.push((holds, self.mark()?));
            self.word(b"\n")?;
        }
        self.word(b"clauses ")?;
        let count = self.number()?;
        self.word(b"\n")?;
        let mut clauses = Vec::new();
        for _ in 0..count {
            clauses.push(self.clause(sizes[0])?);
        }
        let mut stimuli = Vec::new();
        for (prop, (_, mark)) in props.iter().enumerate() {
            if matches!(mark, Mark::Fails) {
                stimuli.push(self.stimulus(prop as u32, &sizes)?);
            }
        }
        let joined = self.is(b"joined yes\n");
        if !joined {
            self.word(b"joined no\n")?;
        }
        self.word(b"set")?;
        let mut set: Vec<u32> = Vec::new();
        while self.is(b" ") {
            let prop = self.prop(sizes[4])?;
            if set.last().is_some_and(|last| *last >= prop) {
                return None;
            }
            set.push(prop);
        }
        self.word(b"\n")?;
        let journal = if self.is(b"journal ") { Some(self.journal(sizes[4], clauses.len())?) } else { None };
        self.word(b"end\n")?;
        (self.at == self.bytes.len()).then_some(Report { sizes, props, clauses, stimuli, joined, set, journal })
    }
}

fn mark_text(mark: Mark) -> String {
    match mark {
        Mark::Proved => "proved".into(),
        Mark::Fails => "fails".into(),
        Mark::Budget(units) => format!("unknown budget {units}"),
        Mark::Cancelled => "unknown cancelled".into(),
    }
}

fn put_row(text: &mut String, row: &[bool]) {
    text.extend(row.iter().map(|bit| if *bit { '1' } else { '0' }));
    text.push('\n');
}

fn put_entry(text: &mut String, entry: &Entry) -> std::fmt::Result {
    write!(text, "{} ", entry.seat)?;
    match &entry.what {
        What::DrawNone => text.push_str("draw none"),
        What::Draw(prop) => write!(text, "draw b{prop}")?,
        What::Import => text.push_str("import"),
        What::Publish => text.push_str("publish"),
        What::Settle(prop, mark, None) => write!(text, "settle b{prop} {}", mark_text(*mark))?,
        What::Settle(prop, mark, Some(had)) => write!(text, "settle b{prop} {} had {}", mark_text(*mark), mark_text(*had))?,
        What::Cancel(prop, true) => write!(text, "cancel b{prop} yes")?,
        What::Cancel(prop, false) => write!(text, "cancel b{prop} no")?,
        What::GiveUp(prop) => write!(text, "giveup b{prop} yes")?,
        What::GoOn(prop) => write!(text, "giveup b{prop} goon")?,
        What::Had(prop, mark) => write!(text, "giveup b{prop} had {}", mark_text(*mark))?,
    }
    writeln!(text, " at {}", entry.upto)
}

fn text_of(report: &Report) -> Result<String, std::fmt::Error> {
    let mut text = String::from("jasign 1\ndesign");
    for size in report.sizes {
        write!(text, " {size}")?;
    }
    text.push('\n');
    for (prop, (holds, mark)) in report.props.iter().enumerate() {
        writeln!(text, "b{prop} {} {}", if *holds { "hold" } else { "fail" }, mark_text(*mark))?;
    }
    writeln!(text, "clauses {}", report.clauses.len())?;
    for clause in &report.clauses {
        for (at, lit) in clause.iter().enumerate() {
            if at > 0 {
                text.push(' ');
            }
            write!(text, "{lit}")?;
        }
        text.push('\n');
    }
    for stimulus in &report.stimuli {
        write!(text, "stimulus b{0}\n1\nb{0}\n", stimulus.prop)?;
        put_row(&mut text, &stimulus.start);
        stimulus.rows.iter().for_each(|row| put_row(&mut text, row));
        text.push_str(".\n");
    }
    text.push_str(if report.joined { "joined yes\nset" } else { "joined no\nset" });
    for prop in &report.set {
        write!(text, " b{prop}")?;
    }
    text.push('\n');
    if let Some(journal) = &report.journal {
        writeln!(text, "journal {}", journal.len())?;
        for entry in journal {
            put_entry(&mut text, entry)?;
        }
    }
    text.push_str("end\n");
    Ok(text)
}

fn main() {
    let read = std::env::args().nth(1).and_then(|name| std::fs::read(name).ok());
    let report = read.and_then(|bytes| Bytes { bytes: &bytes, at: 0 }.report());
    let Some(text) = report.and_then(|report| text_of(&report).ok()) else { exit(3) };
    exit(if std::io::stdout().write_all(text.as_bytes()).is_ok() { 0 } else { 5 })
}
