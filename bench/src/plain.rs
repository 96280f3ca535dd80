// The least that a program may do for the same promise: plain Rust, the product's own log bytes, its two syncs a group.
//
//     plain DIR GROUP LOG REPLIES     runs DIR/messages.txt over DIR/accounts.txt, GROUP messages a group
//     plain --read LOG                reads a log, and parses each entry into a struct: what a restart costs at least
//
// Messages are taken one at a time, in order: DEPOSIT account amount, WDRAW account amount, ASK account. A line may
// have a number behind its terminal; the last one of each terminal is kept with its reply line.
use std::collections::HashMap;
use std::fs::{self, File};
use std::io::Write;
use std::os::unix::fs::FileExt;

fn packed(value: i64) -> [u8; 8] {
    let mut bytes = [0; 8];
    let (mut left, sign) = (value.unsigned_abs(), if value < 0 { 13 } else { 12 });
    bytes[7] = (left % 10 << 4) as u8 | sign;
    left /= 10;
    for at in (0..7).rev() {
        bytes[at] = (left % 10) as u8 | ((left / 10 % 10) << 4) as u8;
        left /= 100;
    }
    bytes
}

fn part(out: &mut Vec<u8>, bytes: &[u8]) {
    out.extend_from_slice(&(bytes.len() as u16).to_be_bytes());
    out.extend_from_slice(bytes);
}

/// One entry behind the others: its place, its end, the segment that it changed.
fn entry(out: &mut Vec<u8>, place: u64, line: &[u8], end: &End, changed: Option<(&[u8], i64)>) {
    let begin = out.len();
    out.extend_from_slice(&[0; 8]);
    out.extend_from_slice(&place.to_be_bytes());
    match end {
        End::Done(reply) => {
            out.push(0);
            part(out, line);
            part(out, reply);
        }
        End::Roll(code) => {
            out.push(2);
            out.extend_from_slice(&code.to_be_bytes());
            part(out, line);
            part(out, b"");
        }
    }
    out.extend_from_slice(&1u32.to_be_bytes());
    out.extend_from_slice(&place.to_be_bytes());
    match changed {
        Some((key, balance)) => {
            out.extend_from_slice(&1u32.to_be_bytes());
            out.extend_from_slice(&[1, 0, key.len() as u8]);
            out.extend_from_slice(key);
            out.extend_from_slice(&(key.len() as u16 + 8).to_be_bytes());
            out.extend_from_slice(key);
            out.extend_from_slice(&packed(balance));
        }
        None => out.extend_from_slice(&0u32.to_be_bytes()),
    }
    let length = (out.len() - begin - 8) as u64;
    out[begin..begin + 8].copy_from_slice(&length.to_be_bytes());
}

enum End {
    Done(Vec<u8>),
    Roll(u16),
}

type Balances = HashMap<Vec<u8>, i64>;

/// How a message ends, and the account that it changes, with its new balance.
fn run<'a>(balances: &mut Balances, words: &[&'a [u8]]) -> (End, Option<(&'a [u8], i64)>) {
    let balance = balances.get_mut(words[1]).expect("an account");
    let amount = words.get(2).map_or(0, |w| std::str::from_utf8(w).unwrap().parse::<i64>().unwrap());
    match words[0] {
        b"ASK" => (End::Done(balance.to_string().into_bytes()), None),
        b"WDRAW" if *balance < amount => (End::Roll(7), None),
        b"WDRAW" => {
            *balance -= amount;
            (End::Done([b"PAID ", words[2]].concat()), Some((words[1], *balance)))
        }
        _ => {
            *balance += amount;
            (End::Done(b"NEW".to_vec()), Some((words[1], *balance)))
        }
    }
}

fn told(end: &End, out: &mut Vec<u8>) {
    match end {
        End::Done(reply) => {
            out.extend_from_slice(b"OK ");
            out.extend_from_slice(reply);
        }
        End::Roll(code) => out.extend_from_slice(format!("NO ROLB {code}").as_bytes()),
    }
}

struct Log {
    file: File,
    gate: u64,
    body: Vec<u8>,
}

impl Log {
    /// The group behind the gate, the gate behind it closed; a sync; the gate; a sync.
    fn seal(&mut self) -> std::io::Result<()> {
        let length = self.body.len() as u64 - 8;
        self.body[..8].copy_from_slice(&length.to_be_bytes());
        self.body.push(0);
        self.file.write_all_at(&self.body, self.gate + 1)?;
        self.file.sync_all()?;
        self.file.write_all_at(&[1], self.gate)?;
        self.file.sync_all()?;
        self.gate += 9 + length;
        self.body.truncate(8);
        Ok(())
    }
}

fn read(path: &str) {
    struct Entry {
        from: u64,
        line: Vec<u8>,
        reply: Vec<u8>,
        notes: Vec<u64>,
        items: Vec<(Vec<u8>, Vec<u8>)>,
    }
    let log = fs::read(path).unwrap();
    let number = |at: usize, count: usize| log[at..at + count].iter().fold(0usize, |n, b| n << 8 | *b as usize);
    let mut at = 9 + 4 + number(9, 4);
    at += 4 + number(at, 4);
    let (mut entries, mut sum) = (0u64, 0u64);
    while at < log.len() && log[at] == 1 {
        let end = at + 9 + number(at + 1, 8);
        at += 9;
        while at < end {
            let next = at + 8 + number(at, 8);
            let from = number(at + 8, 8) as u64;
            let mut place = at + 17 + if log[at + 16] == 2 { 2 } else { 0 };
            let mut text = |width: usize| {
                let length = number(place, width);
                place += width + length;
                log[place - length..place].to_vec()
            };
            let (line, reply) = (text(2), text(2));
            let notes = (0..number(place, 4)).map(|i| number(place + 4 + 8 * i, 8) as u64).collect::<Vec<_>>();
            place += 4 + 8 * notes.len();
            let count = number(place, 4);
            place += 4;
            let mut items = Vec::new();
            for _ in 0..count {
                let key = log[place + 3..place + 3 + number(place + 2, 1)].to_vec();
                place += 3 + key.len();
                let segment = log[place + 2..place + 2 + number(place, 2)].to_vec();
                place += 2 + segment.len();
                items.push((key, segment));
            }
            let entry = Entry { from, line, reply, notes, items };
            sum += entry.from + (entry.line.len() + entry.reply.len() + entry.notes.len() + entry.items.len()) as u64;
            entries += 1;
            at = next;
        }
    }
    println!("{entries} entries, {sum}");
}

fn main() -> std::io::Result<()> {
    let words: Vec<String> = std::env::args().skip(1).collect();
    if words[0] == "--read" {
        read(&words[1]);
        return Ok(());
    }
    let (folder, group) = (&words[0], words[1].parse::<usize>().unwrap());
    let mut balances = Balances::new();
    for line in fs::read_to_string(format!("{folder}/accounts.txt"))?.lines() {
        let (key, balance) = line.split_once(' ').unwrap();
        balances.insert(key.as_bytes().to_vec(), balance.parse().unwrap());
    }
    let front = fs::read(format!("{folder}/front"))?;
    let file = File::create(&words[2])?;
    file.write_all_at(&front, 0)?;
    file.sync_all()?;
    let mut log = Log { file, gate: front.len() as u64 - 1, body: vec![0; 8] };
    let mut out = File::create(&words[3])?;
    let (mut lasts, mut replies) = (HashMap::<Vec<u8>, (u64, Vec<u8>)>::new(), Vec::new());
    let messages = fs::read(format!("{folder}/messages.txt"))?;
    let (mut place, mut waiting) = (0u64, 0);
    for line in messages.split(|b| *b == b'\n').filter(|line| !line.is_empty()) {
        let words: Vec<&[u8]> = line.split(|b| *b == b' ').collect();
        let numbered = words[1][0].is_ascii_digit();
        let (end, changed) = run(&mut balances, &words[1 + numbered as usize..]);
        entry(&mut log.body, place, line, &end, changed);
        let begin = replies.len();
        replies.extend_from_slice(words[0]);
        replies.push(b' ');
        told(&end, &mut replies);
        if numbered {
            let number = std::str::from_utf8(words[1]).unwrap().parse().unwrap();
            lasts.insert(words[0].to_vec(), (number, replies[begin..].to_vec()));
        }
        replies.push(b'\n');
        place += 1;
        waiting += 1;
        if waiting == group {
            log.seal()?;
            out.write_all(&replies)?;
            replies.clear();
            waiting = 0;
        }
    }
    if waiting > 0 {
        log.seal()?;
        out.write_all(&replies)?;
    }
    Ok(())
}
