// Trace files by brute force: every rule as the pages under docs/ state it, with no thought of speed.

pub const LONGEST: usize = 65_536;
pub const LINES: u64 = 3_000;
pub const MOST_MONITORED: usize = 4_096;

#[derive(Clone, Copy, Debug, PartialEq)]
pub struct Refusal {
    pub number: u32,
    pub layer: u32,
    pub place: usize,
}

fn refuse<T>(number: u32, layer: u32, place: usize) -> Result<T, Refusal> {
    Err(Refusal { number, layer, place })
}

#[derive(Clone, Copy, Debug)]
pub struct Event {
    pub letter: u8,
    pub thread: usize,
    pub number: usize,
    pub region: usize,
}

impl Event {
    fn is_access(&self) -> bool {
        self.letter == b'r' || self.letter == b'w'
    }

    // Objects by a name of their own: declared ones, starts of threads, ends of threads.
    fn releases(&self) -> Option<(char, usize)> {
        match self.letter {
            b'l' => Some(('o', self.number)),
            b'f' => Some(('s', self.number)),
            b'e' => Some(('e', self.thread)),
            _ => None,
        }
    }

    fn acquires(&self) -> Option<(char, usize)> {
        match self.letter {
            b'a' => Some(('o', self.number)),
            b'j' => Some(('e', self.number)),
            b'b' => Some(('s', self.thread)),
            _ => None,
        }
    }
}

pub struct Trace {
    pub threads: usize,
    pub events: Vec<Event>,
}

fn two(bytes: &[u8], at: usize) -> usize {
    bytes[at] as usize * 256 + bytes[at + 1] as usize
}

// The entries of a section: the letters of the objects, and where the section ends.
fn section(bytes: &[u8], mut at: usize, low: usize, high: usize, lettered: bool) -> Result<(Vec<u8>, usize, usize), Refusal> {
    if at + 2 > bytes.len() {
        return refuse(1, 1, at);
    }
    let count = two(bytes, at);
    if count < low || count > high {
        return refuse(3, 2, at);
    }
    at += 2;
    let mut letters = Vec::new();
    for _ in 0..count {
        let entry = at;
        if lettered {
            match bytes.get(at) {
                None => return refuse(1, 1, entry),
                Some(b) if *b != b'm' && *b != b's' => return refuse(4, 2, entry),
                Some(b) => letters.push(*b),
            }
            at += 1;
        }
        let length = match bytes.get(at) {
            None => return refuse(1, 1, entry),
            Some(b) if *b < 1 || *b > 31 => return refuse(4, 2, entry),
            Some(b) => *b as usize,
        };
        at += 1;
        for _ in 0..length {
            match bytes.get(at) {
                None => return refuse(1, 1, entry),
                Some(b) if *b < 0x21 || *b > 0x7e => return refuse(4, 2, entry),
                Some(_) => at += 1,
            }
        }
    }
    Ok((letters, count, at))
}

fn life_is_kept(before: &[Event], e: &Event) -> bool {
    let forked = |t: usize| before.iter().any(|f| f.letter == b'f' && f.number == t);
    let begun = |t: usize| before.iter().any(|f| f.letter == b'b' && f.thread == t);
    let ended = |t: usize| before.iter().any(|f| f.letter == b'e' && f.thread == t);
    let runs = |t: usize| (t == 0 || begun(t)) && !ended(t);
    match e.letter {
        b'b' => e.number == e.thread && forked(e.thread) && !begun(e.thread),
        b'e' => e.number == e.thread && runs(e.thread),
        b'f' => runs(e.thread) && e.number != 0 && !forked(e.number),
        b'j' => runs(e.thread) && ended(e.number),
        _ => runs(e.thread),
    }
}

fn holder(before: &[Event], m: usize) -> Option<usize> {
    let last = before.iter().rev().find(|f| (f.letter == b'a' || f.letter == b'l') && f.number == m)?;
    if last.letter == b'a' { Some(last.thread) } else { None }
}

fn mutex_rule_is_kept(mutexes: &[bool], before: &[Event], e: &Event) -> bool {
    match e.letter {
        b'a' if mutexes[e.number] => holder(before, e.number).is_none(),
        b'l' if mutexes[e.number] => holder(before, e.number) == Some(e.thread),
        _ => true,
    }
}

pub fn read(bytes: &[u8]) -> Result<Trace, Refusal> {
    if bytes.len() < 3 {
        return refuse(1, 1, 0);
    }
    if &bytes[0..3] != b"TC\x01" {
        return refuse(2, 1, 0);
    }
    let (_, threads, at) = section(bytes, 3, 1, 16, false)?;
    let (letters, objects, at) = section(bytes, at, 0, 512, true)?;
    let (_, variables, at) = section(bytes, at, 0, 256, false)?;
    if at + 4 > bytes.len() {
        return refuse(1, 1, at);
    }
    let count = two(bytes, at) * 65_536 + two(bytes, at + 2);
    if count > 1_000_000 {
        return refuse(3, 2, at);
    }
    let first = at + 4;
    let there = bytes.len() - first;
    if there < 6 * count {
        return refuse(1, 1, first + there / 6 * 6);
    }
    if there > 6 * count {
        return refuse(5, 2, first + 6 * count);
    }
    let mutexes: Vec<bool> = letters.iter().map(|b| *b == b'm').collect();
    let mut events: Vec<Event> = Vec::new();
    for place in 0..count {
        let at = first + 6 * place;
        let e = Event { letter: bytes[at], thread: bytes[at + 1] as usize, number: two(bytes, at + 2), region: two(bytes, at + 4) };
        let limit = match e.letter {
            b'r' | b'w' | b'M' | b'N' | b'D' | b'Q' => variables,
            b'a' | b'l' => objects,
            b'f' | b'j' | b'b' | b'e' => threads,
            _ => return refuse(6, 3, place),
        };
        if e.thread >= threads || e.number >= limit {
            return refuse(7, 3, place);
        }
        if !e.is_access() && e.region != 0 {
            return refuse(8, 3, place);
        }
        if !life_is_kept(&events, &e) {
            return refuse(10, 4, place);
        }
        if !mutex_rule_is_kept(&mutexes, &events, &e) {
            return refuse(9, 4, place);
        }
        events.push(e);
    }
    Ok(Trace { threads, events })
}

// before[j] has i where a chain leads from i to j: the closure of the single steps
fn chains(events: &[Event]) -> Vec<Vec<u64>> {
    let words = events.len() / 64 + 1;
    let mut before: Vec<Vec<u64>> = Vec::new();
    for (j, f) in events.iter().enumerate() {
        let mut row = vec![0u64; words];
        for (i, e) in events[..j].iter().enumerate() {
            let passes = e.releases().is_some() && e.releases() == f.acquires();
            if e.thread == f.thread || passes {
                for w in 0..words {
                    row[w] |= before[i][w];
                }
                row[i / 64] |= 1 << (i % 64);
            }
        }
        before.push(row);
    }
    before
}

fn chained(before: &[Vec<u64>], i: usize, j: usize) -> bool {
    before[j][i / 64] >> (i % 64) & 1 == 1
}

fn conflict(e: &Event, f: &Event) -> bool {
    e.is_access() && f.is_access() && e.number == f.number && e.thread != f.thread && (e.letter == b'w' || f.letter == b'w')
}

pub fn races(t: &Trace) -> Vec<(usize, usize)> {
    let before = chains(&t.events);
    let mut found = Vec::new();
    for j in 0..t.events.len() {
        let mut here = Vec::new();
        for i in 0..j {
            let (e, f) = (&t.events[i], &t.events[j]);
            let later_one = t.events[i + 1..j].iter().any(|k| k.thread == e.thread && k.number == e.number && k.letter == e.letter);
            if conflict(e, f) && !chained(&before, i, j) && !later_one {
                here.push((e.thread, e.letter == b'r', i));
            }
        }
        here.sort();
        for (_, _, i) in here {
            found.push((i, j));
        }
    }
    found
}

// the level of a thread and a variable after the first k events: 0 none, 1 weak, 2 strong
fn level(events: &[Event], k: usize, t: usize, v: usize) -> u8 {
    let mut l = 0;
    for e in &events[..k] {
        if e.thread == t && e.number == v {
            l = match (e.letter, l) {
                (b'M', _) => 2,
                (b'N', 0) => 1,
                (b'D', 2) => 1,
                (b'Q', _) => 0,
                (_, l) => l,
            };
        }
    }
    l
}

fn in_region(events: &[Event], p: usize, k: usize) -> bool {
    let t = events[p].thread;
    let begin = (0..p).rev().find(|a| events[*a].thread == t && events[*a].acquires().is_some());
    let end = (p + 1..events.len()).find(|r| events[*r].thread == t && events[*r].releases().is_some()).unwrap_or(events.len());
    let after_begin = match begin {
        Some(b) => b < k,
        None => true,
    };
    after_begin && k <= end
}

// the lowest-placed fitting access whose region holds the moment k
fn covering(events: &[Event], k: usize, t: usize, v: usize, l: u8) -> Option<usize> {
    (0..events.len()).find(|p| {
        let e = &events[*p];
        let fits = if l == 2 { e.letter == b'w' } else { e.is_access() };
        e.thread == t && e.number == v && fits && in_region(events, *p, k)
    })
}

pub fn overlaps(t: &Trace) -> Result<Vec<(usize, usize)>, Refusal> {
    let es = &t.events;
    if es.len() > MOST_MONITORED {
        return refuse(15, 6, MOST_MONITORED);
    }
    let mut used = Vec::new();
    for e in es.iter().filter(|e| b"MNDQ".contains(&e.letter)) {
        if !used.contains(&(e.thread, e.number)) {
            used.push((e.thread, e.number));
        }
    }
    for k in 0..=es.len() {
        for (u, v) in &used {
            let l = level(es, k, *u, *v);
            if l > 0 && covering(es, k, *u, *v, l).is_none() {
                return refuse(11, 5, k);
            }
        }
    }
    let mut found = Vec::new();
    for i in 0..es.len() {
        let e = &es[i];
        if !b"MNDQ".contains(&e.letter) {
            continue;
        }
        let (v, now) = (e.number, level(es, i + 1, e.thread, e.number));
        if now <= level(es, i, e.thread, v) {
            continue;
        }
        for u in (0..t.threads).filter(|u| *u != e.thread) {
            let other = level(es, i + 1, u, v);
            if other > 0 && (now == 2 || other == 2) {
                let a = covering(es, i + 1, e.thread, v, now).unwrap();
                let b = covering(es, i + 1, u, v, other).unwrap();
                found.push((a.min(b), a.max(b)));
            }
        }
    }
    Ok(found)
}

fn lines(t: &Trace, found: &[(usize, usize)]) -> String {
    let mut text = String::new();
    let written = (found.len() as u64).min(LINES);
    for (i, j) in &found[..written as usize] {
        let (e, f) = (&t.events[*i], &t.events[*j]);
        text += &format!("{:06} {:06} {:03} {}{}\n", i, j, e.number, e.letter as char, f.letter as char);
    }
    text + &format!("found {} written {} dropped {}\n", found.len(), written, found.len() as u64 - written)
}

fn refused(r: Refusal) -> String {
    format!("refused {} layer {} place {}\n", r.number, r.layer, r.place)
}

// What the program `races`, or `monitors`, prints for an input.
pub fn answer(program: &str, bytes: &[u8]) -> String {
    if bytes.len() > LONGEST {
        return refused(Refusal { number: 12, layer: 6, place: LONGEST + 1 });
    }
    let t = match read(bytes) {
        Ok(t) => t,
        Err(r) => return refused(r),
    };
    let found = if program == "races" { Ok(races(&t)) } else { overlaps(&t) };
    match found {
        Ok(found) => lines(&t, &found),
        Err(r) => refused(r),
    }
}
