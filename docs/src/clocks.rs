// The clock method as an ordinary Rust program, to compare speed with: sixteen numbers a clock, the same tables, the same order of findings.
// It counts the findings of a trace file that it takes to be valid: clocks FILE [TURNS]
use std::time::Instant;

const WIDTH: usize = 16;

#[derive(Clone, Copy)]
struct Clock([u32; WIDTH]);

const ZERO: Clock = Clock([0; WIDTH]);

impl Clock {
    fn join(&mut self, other: &Clock) {
        for i in 0..WIDTH {
            self.0[i] = self.0[i].max(other.0[i]);
        }
    }
}

// What is kept of an access: one more than its place, 0 where there is none.
type Latest = u32;

struct Tables {
    threads: usize,
    objects: usize,
    variables: usize,
    clocks: Vec<Clock>,
    object_clocks: Vec<Clock>,
    latest: Vec<Latest>,
}

fn two(b: &[u8]) -> usize {
    b[0] as usize * 256 + b[1] as usize
}

// the number of entries and what follows them
fn section(bytes: &[u8], lettered: bool) -> (usize, &[u8]) {
    let count = two(bytes);
    let mut rest = &bytes[2..];
    for _ in 0..count {
        if lettered {
            rest = &rest[1..];
        }
        let n = rest[0] as usize;
        rest = &rest[1 + n..];
    }
    (count, rest)
}

impl Tables {
    fn clear(&mut self) {
        self.clocks.fill(ZERO);
        self.object_clocks.fill(ZERO);
        self.latest.fill(0);
    }

    fn acquired(&self, letter: u8, thread: usize, number: usize) -> Option<usize> {
        match letter {
            b'a' => Some(number),
            b'b' => Some(self.objects + thread),
            b'j' => Some(self.objects + self.threads + number),
            _ => None,
        }
    }

    fn released(&self, letter: u8, thread: usize, number: usize) -> Option<usize> {
        match letter {
            b'l' => Some(number),
            b'f' => Some(self.objects + number),
            b'e' => Some(self.objects + self.threads + thread),
            _ => None,
        }
    }

    fn slot(&self, thread: usize, variable: usize, write: bool) -> usize {
        2 * (thread * self.variables + variable) + write as usize
    }

    // counts the findings by variable
    fn run(&mut self, events: &[u8], tally: &mut [u32; 256]) -> u64 {
        let mut found = 0;
        for (place, e) in events.chunks_exact(6).enumerate() {
            let (letter, thread, number) = (e[0], e[1] as usize, two(&e[2..4]));
            let mut clock = self.clocks[thread];
            if let Some(o) = self.acquired(letter, thread, number) {
                clock.join(&self.object_clocks[o]);
            }
            clock.0[thread] = clock.0[thread].max(place as u32 + 1);
            if let Some(o) = self.released(letter, thread, number) {
                self.object_clocks[o].join(&clock);
            }
            self.clocks[thread] = clock;
            if letter == b'r' || letter == b'w' {
                for u in 0..self.threads {
                    if u == thread {
                        continue;
                    }
                    let known = self.clocks[thread].0[u];
                    if self.latest[self.slot(u, number, true)] > known {
                        found += 1;
                        tally[number] += 1;
                    }
                    if letter == b'w' && self.latest[self.slot(u, number, false)] > known {
                        found += 1;
                        tally[number] += 1;
                    }
                }
                let slot = self.slot(thread, number, letter == b'w');
                self.latest[slot] = place as u32 + 1;
            }
        }
        found
    }
}

fn main() {
    let args: Vec<String> = std::env::args().collect();
    let file = args.get(1).expect("usage: clocks FILE [TURNS]");
    let turns: usize = args.get(2).map_or(5, |n| n.parse().expect("a number"));
    let bytes = std::fs::read(file).expect("the file is read");
    let (threads, rest) = section(&bytes[3..], false);
    let (objects, rest) = section(rest, true);
    let (variables, rest) = section(rest, false);
    let events = &rest[4..];
    let mut tables = Tables {
        threads,
        objects,
        variables,
        clocks: vec![ZERO; threads],
        object_clocks: vec![ZERO; objects + 2 * threads],
        latest: vec![0; 2 * threads * variables],
    };
    let mut best = f64::MAX;
    let mut found = 0;
    for _ in 0..turns {
        let mut tally = [0; 256];
        let start = Instant::now();
        tables.clear();
        found = tables.run(events, &mut tally);
        best = best.min(start.elapsed().as_secs_f64());
    }
    println!("found {found} in {:.9} s, {:.0} events a second", best, (events.len() / 6) as f64 / best);
}
