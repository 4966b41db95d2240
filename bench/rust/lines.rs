// The line program in plain Rust, for the comparison of speed: a table of 4 open rules, clock stamps, standard input and output.
use std::fmt;
use std::io::{self, BufRead, Write};

const SESSIONS: usize = 8;
const ROOM: usize = 32;

#[derive(Clone, Copy, PartialEq)]
struct Rule {
    address: u32,
    prefix: u8,
    block: bool,
    first: u16,
    last: u16,
}

const OPEN: Rule = Rule { address: 0, prefix: 0, block: false, first: 0, last: 65535 };

impl fmt::Display for Rule {
    fn fmt(&self, f: &mut fmt::Formatter) -> fmt::Result {
        let [a, b, c, d] = self.address.to_be_bytes();
        let action = if self.block { "block" } else { "allow" };
        write!(f, "{a}.{b}.{c}.{d}/{} {action} {}-{}", self.prefix, self.first, self.last)
    }
}

type Refusal = (u8, u8, u32);
type Stamp = (u64, u16);

#[derive(Clone, Copy, PartialEq)]
enum Phase {
    Idle,
    Open,
    Pending,
}

#[derive(Clone, Copy)]
struct Session {
    phase: Phase,
    held: u64,
    copies: [Rule; 64],
    noticed: u64,
    notices: [u32; 64],
    learnt: u32,
    read: u64,
    written: u64,
    staged: [Rule; 64],
}

struct Entry {
    stamp: Stamp,
    session: usize,
    read: u64,
    written: u64,
    pending: bool,
}

enum Answer {
    Done,
    Rule(Rule),
    Number(u32),
    Learnt(u32, u64, bool),
    Refused(Refusal),
}

struct Book {
    rules: Vec<Rule>,
    sessions: [Session; SESSIONS],
    queue: Vec<Entry>,
    threshold: Option<Stamp>,
    number: u32,
}

fn number(field: &[u8], limit: u64) -> Option<u64> {
    if field.is_empty() || field.len() > 20 || (field.len() > 1 && field[0] == b'0') {
        return None;
    }
    let mut n: u64 = 0;
    for b in field {
        if !b.is_ascii_digit() {
            return None;
        }
        n = n.checked_mul(10)?.checked_add((b - b'0') as u64)?;
    }
    (n <= limit).then_some(n)
}

fn split_once(bytes: &[u8], at: u8) -> Option<(&[u8], &[u8])> {
    let i = bytes.iter().position(|b| *b == at)?;
    Some((&bytes[..i], &bytes[i + 1..]))
}

fn stamp(field: &[u8]) -> Option<Stamp> {
    let (time, station) = split_once(field, b'.')?;
    Some((number(time, u64::MAX)?, number(station, 65535)? as u16))
}

fn network(field: &[u8]) -> Option<(u32, u8)> {
    let (address, prefix) = split_once(field, b'/')?;
    let mut octets = [0; 4];
    let mut parts = address.split(|b| *b == b'.');
    for octet in &mut octets {
        *octet = number(parts.next()?, 255)? as u8;
    }
    if parts.next().is_some() {
        return None;
    }
    Some((u32::from_be_bytes(octets), number(prefix, 255)? as u8))
}

fn action(field: &[u8]) -> Option<bool> {
    match field {
        b"allow" => Some(false),
        b"block" => Some(true),
        _ => None,
    }
}

fn ports(field: &[u8]) -> Option<(u16, u16)> {
    let (first, last) = split_once(field, b'-')?;
    Some((number(first, 65535)? as u16, number(last, 65535)? as u16))
}

struct Fields<'a> {
    line: &'a [u8],
    rest: Option<&'a [u8]>,
}

impl<'a> Fields<'a> {
    fn next<T>(&mut self, read: impl Fn(&[u8]) -> Option<T>) -> Result<T, Refusal> {
        let Some(rest) = self.rest else {
            return Err((21, 4, self.line.len() as u32));
        };
        let at = (self.line.len() - rest.len()) as u32;
        let (field, rest) = match split_once(rest, b' ') {
            Some((field, rest)) => (field, Some(rest)),
            None => (rest, None),
        };
        self.rest = rest;
        read(field).ok_or((21, 4, at))
    }

    fn end(&self) -> Result<(), Refusal> {
        match self.rest {
            Some(rest) => Err((21, 4, (self.line.len() - rest.len()) as u32)),
            None => Ok(()),
        }
    }
}

fn number32(field: &[u8]) -> Option<u32> {
    number(field, u32::MAX as u64).map(|n| n as u32)
}

impl Book {
    fn new(count: usize) -> Book {
        let fresh = Session {
            phase: Phase::Idle,
            held: 0,
            copies: [OPEN; 64],
            noticed: 0,
            notices: [0; 64],
            learnt: 0,
            read: 0,
            written: 0,
            staged: [OPEN; 64],
        };
        Book { rules: vec![OPEN; count], sessions: [fresh; SESSIONS], queue: Vec::with_capacity(ROOM), threshold: None, number: 0 }
    }

    fn session(&self, session: u32) -> Result<usize, Refusal> {
        if (session as usize) < SESSIONS { Ok(session as usize) } else { Err((2, 3, session)) }
    }

    fn slot(&self, slot: u32) -> Result<usize, Refusal> {
        if (slot as usize) < self.rules.len() { Ok(slot as usize) } else { Err((3, 3, slot)) }
    }

    fn phase(&self, s: usize, listed: &[Phase]) -> Result<(), Refusal> {
        if listed.contains(&self.sessions[s].phase) { Ok(()) } else { Err((4, 3, s as u32)) }
    }

    fn held(&self, s: usize, x: usize) -> Result<(), Refusal> {
        if self.sessions[s].held >> x & 1 == 1 { Ok(()) } else { Err((6, 3, x as u32)) }
    }

    fn forward(&mut self, s: usize, stamp: Stamp) -> Result<Answer, Refusal> {
        self.phase(s, &[Phase::Open])?;
        if self.threshold.is_some_and(|t| stamp <= t) {
            return Err((9, 3, 0));
        }
        if let Some(i) = self.queue.iter().position(|e| e.stamp == stamp) {
            return Err((10, 3, i as u32));
        }
        if self.queue.len() >= ROOM {
            return Err((11, 3, 32));
        }
        let own = &self.sessions[s];
        let (read, written) = (own.read, own.written);
        if let Some(i) = self.queue.iter().position(|e| stamp < e.stamp && (e.written & read != 0 || e.read & written != 0)) {
            return Err((12, 3, i as u32));
        }
        if let Some(i) = self.queue.iter().position(|e| e.pending && e.stamp < stamp && e.written & read != 0) {
            return Err((13, 3, i as u32));
        }
        if own.read & own.noticed != 0 {
            return Err((14, 3, (own.read & own.noticed).trailing_zeros()));
        }
        let owed = self.queue.iter().filter(|e| e.pending && e.written != 0).count() as u64;
        if written != 0 && self.number as u64 + owed == u32::MAX as u64 {
            return Err((15, 3, 0));
        }
        self.queue.push(Entry { stamp, session: s, read, written, pending: true });
        self.sessions[s].phase = Phase::Pending;
        Ok(Answer::Number(self.queue.len() as u32 - 1))
    }

    fn end_change(&mut self, s: usize) {
        let own = &mut self.sessions[s];
        own.phase = Phase::Idle;
        own.read = 0;
        own.written = 0;
    }

    fn commit(&mut self, s: usize) -> Result<Answer, Refusal> {
        self.phase(s, &[Phase::Pending])?;
        let written = self.sessions[s].written;
        for x in 0..self.rules.len() {
            if written >> x & 1 == 1 {
                let rule = self.sessions[s].staged[x];
                self.rules[x] = rule;
                self.sessions[s].copies[x] = rule;
            }
        }
        self.sessions[s].held |= written;
        if written != 0 {
            self.number += 1;
            for (t, other) in self.sessions.iter_mut().enumerate() {
                let told = written & other.held;
                if t != s && told != 0 {
                    other.noticed |= told;
                    for x in 0..64 {
                        if told >> x & 1 == 1 {
                            other.notices[x] = self.number;
                        }
                    }
                }
            }
        }
        for entry in &mut self.queue {
            if entry.session == s {
                entry.pending = false;
            }
        }
        self.end_change(s);
        Ok(Answer::Number(self.number))
    }

    fn learn(&mut self, s: usize) -> Answer {
        let number = self.number;
        let own = &mut self.sessions[s];
        let noticed = own.noticed;
        own.held &= !noticed;
        own.learnt = number;
        let ended = own.phase == Phase::Open && own.read & noticed != 0;
        if ended {
            self.end_change(s);
        }
        Answer::Learnt(number, noticed, ended)
    }

    fn ask(&mut self, line: &[u8]) -> Result<Answer, Refusal> {
        if line.len() > 80 {
            return Err((21, 4, 80));
        }
        let mut fields = Fields { line, rest: Some(line) };
        let letter = fields.next(|f| if f.len() == 1 && b"bfrwdpcalkt".contains(&f[0]) { Some(f[0]) } else { None })?;
        if letter == b't' {
            let stamp = fields.next(stamp)?;
            fields.end()?;
            let threshold = self.threshold.map_or(stamp, |t| t.max(stamp));
            self.threshold = Some(threshold);
            let before = self.queue.len();
            self.queue.retain(|e| e.pending || e.stamp > threshold);
            return Ok(Answer::Number((before - self.queue.len()) as u32));
        }
        let session = fields.next(number32)?;
        match letter {
            b'b' | b'c' | b'a' | b'l' => {
                fields.end()?;
                let s = self.session(session)?;
                match letter {
                    b'b' => {
                        self.phase(s, &[Phase::Idle])?;
                        self.end_change(s);
                        self.sessions[s].phase = Phase::Open;
                        Ok(Answer::Done)
                    }
                    b'c' => self.commit(s),
                    b'a' => {
                        self.phase(s, &[Phase::Open, Phase::Pending])?;
                        self.queue.retain(|e| !(e.pending && e.session == s));
                        self.end_change(s);
                        Ok(Answer::Done)
                    }
                    _ => Ok(self.learn(s)),
                }
            }
            b'p' => {
                let stamp = fields.next(stamp)?;
                fields.end()?;
                let s = self.session(session)?;
                self.forward(s, stamp)
            }
            b'k' => {
                let number = fields.next(number32)?;
                fields.end()?;
                let s = self.session(session)?;
                let own = &mut self.sessions[s];
                if number > own.learnt {
                    return Err((16, 3, session));
                }
                for x in 0..64 {
                    if own.noticed >> x & 1 == 1 && own.notices[x] <= number {
                        own.noticed &= !(1 << x);
                    }
                }
                Ok(Answer::Done)
            }
            _ => {
                let slot = fields.next(number32)?;
                let rule = if letter == b'w' {
                    let at = (line.len() - fields.rest.map_or(0, |r| r.len())) as u32;
                    let (address, prefix) = fields.next(network)?;
                    let block = fields.next(action)?;
                    let (first, last) = fields.next(ports)?;
                    fields.end()?;
                    if prefix > 32 || (address as u64) % (1u64 << (32 - prefix)) != 0 || first > last {
                        return Err((20, 4, at));
                    }
                    Rule { address, prefix, block, first, last }
                } else {
                    fields.end()?;
                    OPEN
                };
                let s = self.session(session)?;
                let x = self.slot(slot)?;
                match letter {
                    b'f' => {
                        self.phase(s, &[Phase::Idle, Phase::Open])?;
                        if self.held(s, x).is_ok() {
                            return Err((5, 3, slot));
                        }
                        let rule = self.rules[x];
                        let own = &mut self.sessions[s];
                        own.copies[x] = rule;
                        own.held |= 1 << x;
                        own.noticed &= !(1 << x);
                        Ok(Answer::Rule(rule))
                    }
                    b'r' => {
                        self.phase(s, &[Phase::Open])?;
                        self.held(s, x)?;
                        let own = &mut self.sessions[s];
                        own.read |= 1 << x;
                        Ok(Answer::Rule(if own.written >> x & 1 == 1 { own.staged[x] } else { own.copies[x] }))
                    }
                    b'w' => {
                        self.phase(s, &[Phase::Open])?;
                        self.held(s, x)?;
                        let own = &mut self.sessions[s];
                        if own.read >> x & 1 == 0 {
                            return Err((7, 3, slot));
                        }
                        own.staged[x] = rule;
                        own.written |= 1 << x;
                        Ok(Answer::Done)
                    }
                    _ => {
                        self.phase(s, &[Phase::Idle, Phase::Open])?;
                        self.held(s, x)?;
                        let own = &mut self.sessions[s];
                        if own.phase == Phase::Open && own.read >> x & 1 == 1 {
                            return Err((8, 3, slot));
                        }
                        own.held &= !(1 << x);
                        Ok(Answer::Done)
                    }
                }
            }
        }
    }
}

fn main() -> io::Result<()> {
    let mut book = Book::new(4);
    // line by line, as a person at a keyboard sees it
    let mut out = io::stdout().lock();
    for (number, line) in io::stdin().lock().split(b'\n').enumerate() {
        let number = number + 1;
        let answer = book.ask(&line?).unwrap_or_else(Answer::Refused);
        match answer {
            Answer::Done => writeln!(out, "{number} 0")?,
            Answer::Rule(rule) => writeln!(out, "{number} 0 {rule}")?,
            Answer::Number(n) => writeln!(out, "{number} 0 {n}")?,
            Answer::Learnt(n, slots, ended) => {
                let list: Vec<String> = (0..64).filter(|x| slots >> x & 1 == 1).map(|x| x.to_string()).collect();
                let list = if list.is_empty() { "-".to_string() } else { list.join(",") };
                writeln!(out, "{number} 0 {n} {list} {}", ended as u8)?
            }
            Answer::Refused((cause, layer, place)) => writeln!(out, "{number} {cause} {layer} {place}")?,
        }
    }
    Ok(())
}
