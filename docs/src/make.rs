// Makes traces by chance: valid ones of all sizes, with monitors placed by a simple instrumenter, and damaged ones.

// Numbers by chance, the same for the same start.
pub struct Chance(u64);

impl Chance {
    pub fn new(start: u64) -> Chance {
        Chance(start.wrapping_mul(0x9e37_79b9_7f4a_7c15) ^ 0x5851_f42d_4c95_7f2d)
    }

    fn next(&mut self) -> u64 {
        self.0 = self.0.wrapping_add(0x9e37_79b9_7f4a_7c15);
        let mut z = self.0;
        z = (z ^ (z >> 30)).wrapping_mul(0xbf58_476d_1ce4_e5b9);
        z = (z ^ (z >> 27)).wrapping_mul(0x94d0_49bb_1331_11eb);
        z ^ (z >> 31)
    }

    pub fn below(&mut self, n: usize) -> usize {
        (self.next() % n.max(1) as u64) as usize
    }

    fn percent(&mut self, p: usize) -> bool {
        self.below(100) < p
    }
}

#[derive(Clone, Copy, PartialEq)]
enum Stage {
    Unborn,
    Forked,
    Running,
    Ended,
}

type Raw = (u8, usize, usize, usize);

struct Device {
    mutexes: Vec<bool>,
    variables: usize,
    stages: Vec<Stage>,
    holders: Vec<Option<usize>>,
    plans: Vec<Vec<Raw>>,
    sloppy: bool,
    // thread 0 never ends
    lasting: bool,
}

impl Device {
    fn pick(&self, c: &mut Chance, stage: Stage) -> Option<usize> {
        let all: Vec<usize> = (0..self.stages.len()).filter(|t| self.stages[*t] == stage).collect();
        if all.is_empty() { None } else { Some(all[c.below(all.len())]) }
    }

    // Monitors around an access: strong before a write, weak before a read, sometimes downgraded, then stopped.
    fn plan(&mut self, c: &mut Chance, t: usize) {
        let v = c.below(self.variables);
        let mut plan: Vec<Raw> = Vec::new();
        if c.percent(60) {
            plan.push((b'M', t, v, 0));
            plan.push((b'w', t, v, c.below(3)));
            if c.percent(30) {
                plan.push((b'D', t, v, 0));
                plan.push((b'r', t, v, 0));
            }
        } else {
            plan.push((b'N', t, v, 0));
            plan.push((b'r', t, v, 0));
            if c.percent(20) {
                plan.push((b'M', t, v, 0));
                plan.push((b'w', t, v, 0));
            }
        }
        plan.push((b'Q', t, v, 0));
        if self.sloppy && c.percent(40) {
            let at = c.below(plan.len());
            plan.remove(at);
        }
        plan.reverse();
        self.plans[t] = plan;
    }

    fn step(&mut self, c: &mut Chance, monitored: bool) -> Option<Raw> {
        if c.percent(12) {
            if let Some(t) = self.pick(c, Stage::Forked) {
                self.stages[t] = Stage::Running;
                return Some((b'b', t, t, 0));
            }
        }
        let t = self.pick(c, Stage::Running)?;
        if let Some(e) = self.plans[t].pop() {
            return Some(e);
        }
        if monitored && self.variables > 0 && c.percent(25) {
            self.plan(c, t);
        }
        match c.below(100) {
            0..=9 => {
                let u = self.pick(c, Stage::Unborn)?;
                self.stages[u] = Stage::Forked;
                Some((b'f', t, u, 0))
            }
            10..=12 => {
                if t == 0 && (self.lasting || c.percent(80)) {
                    return None;
                }
                self.stages[t] = Stage::Ended;
                Some((b'e', t, t, 0))
            }
            13..=18 => {
                let u = self.pick(c, Stage::Ended)?;
                Some((b'j', t, u, 0))
            }
            19..=34 => {
                if self.mutexes.is_empty() {
                    return None;
                }
                let m = c.below(self.mutexes.len());
                if self.mutexes[m] && self.holders[m].is_some() {
                    return None;
                }
                self.holders[m] = Some(t);
                Some((b'a', t, m, 0))
            }
            35..=50 => {
                if self.mutexes.is_empty() {
                    return None;
                }
                let m = c.below(self.mutexes.len());
                if self.mutexes[m] && self.holders[m] != Some(t) {
                    return None;
                }
                self.holders[m] = None;
                Some((b'l', t, m, 0))
            }
            51..=52 if self.sloppy && self.variables > 0 => Some((b"MNDQ"[c.below(4)], t, c.below(self.variables), 0)),
            _ => {
                if self.variables == 0 {
                    return None;
                }
                let letter = if c.percent(50) { b'w' } else { b'r' };
                Some((letter, t, c.below(self.variables), c.below(4)))
            }
        }
    }
}

fn events(c: &mut Chance, d: &mut Device, n: usize, monitored: bool) -> Vec<Raw> {
    let mut all = Vec::new();
    for _ in 0..40 * n {
        if all.len() >= n {
            break;
        }
        if let Some(e) = d.step(c, monitored) {
            all.push(e);
        }
    }
    if !d.sloppy {
        for t in 0..d.plans.len() {
            while let Some(e) = d.plans[t].pop() {
                all.push(e);
            }
        }
    }
    all
}

fn name(c: &mut Chance, file: &mut Vec<u8>) {
    let n = if c.percent(5) { 31 } else { 1 + c.below(6) };
    file.push(n as u8);
    for _ in 0..n {
        file.push(0x21 + c.below(0x7e - 0x21 + 1) as u8);
    }
}

fn count(file: &mut Vec<u8>, n: usize) {
    file.push((n / 256) as u8);
    file.push((n % 256) as u8);
}

fn encode(c: &mut Chance, d: &Device, all: &[Raw]) -> Vec<u8> {
    let mut file = b"TC\x01".to_vec();
    count(&mut file, d.stages.len());
    for _ in 0..d.stages.len() {
        name(c, &mut file);
    }
    count(&mut file, d.mutexes.len());
    for m in &d.mutexes {
        file.push(if *m { b'm' } else { b's' });
        name(c, &mut file);
    }
    count(&mut file, d.variables);
    for _ in 0..d.variables {
        name(c, &mut file);
    }
    count(&mut file, all.len() / 65_536);
    count(&mut file, all.len() % 65_536);
    for (letter, thread, number, region) in all {
        file.push(*letter);
        file.push(*thread as u8);
        count(&mut file, *number);
        count(&mut file, *region);
    }
    file
}

// A device by chance: mostly a few threads, objects and variables, sometimes as many as there may be.
fn device(c: &mut Chance) -> Device {
    let threads = match c.below(10) {
        0 => 1,
        1 => 16,
        _ => 2 + c.below(5),
    };
    let objects = if c.percent(10) { 0 } else { 1 + c.below(4) };
    let variables = match c.below(20) {
        0 => 0,
        1 => 256,
        _ => 1 + c.below(4),
    };
    let mut stages = vec![Stage::Unborn; threads];
    stages[0] = Stage::Running;
    Device {
        mutexes: (0..objects).map(|_| c.percent(60)).collect(),
        variables,
        stages,
        holders: vec![None; objects],
        plans: vec![Vec::new(); threads],
        sloppy: c.percent(20),
        lasting: false,
    }
}

// A valid file with about n events.
pub fn valid(c: &mut Chance, n: usize) -> Vec<u8> {
    let mut d = device(c);
    let monitored = c.percent(60);
    let all = events(c, &mut d, n, monitored);
    encode(c, &d, &all)
}

// A valid file with exactly n events and no monitor.
pub fn long(number: u64, n: usize) -> Vec<u8> {
    let mut c = Chance::new(number);
    let mut d = device(&mut c);
    d.variables = d.variables.max(1);
    d.lasting = true;
    let all = events(&mut c, &mut d, n, false);
    assert_eq!(all.len(), n);
    encode(&mut c, &d, &all)
}

fn change_a_byte(c: &mut Chance, file: &mut Vec<u8>) {
    let at = c.below(file.len());
    file[at] = if c.percent(50) { c.below(256) as u8 } else { file[at] ^ (1 << c.below(8)) };
}

// where the events begin, for a file that was valid
fn events_at(file: &[u8]) -> usize {
    let mut at = 3;
    for lettered in [false, true, false] {
        let n = file[at] as usize * 256 + file[at + 1] as usize;
        at += 2;
        for _ in 0..n {
            if lettered {
                at += 1;
            }
            at += 1 + file[at] as usize;
        }
    }
    at + 4
}

// Another event among the events, and the count with it or not.
fn put_an_event(c: &mut Chance, file: &mut Vec<u8>) {
    let first = events_at(file);
    let n = (file.len() - first) / 6;
    let at = first + 6 * c.below(n + 1);
    let event: Vec<u8> = if n > 0 && c.percent(50) {
        let from = first + 6 * c.below(n);
        file[from..from + 6].to_vec()
    } else {
        vec![b"rwalfjbeMNDQx"[c.below(13)], c.below(4) as u8, 0, c.below(4) as u8, 0, if c.percent(20) { 1 } else { 0 }]
    };
    file.splice(at..at, event);
    if c.percent(80) {
        let n = n + 1;
        file[first - 4] = 0;
        file[first - 3] = (n / 65_536) as u8;
        file[first - 2] = (n / 256 % 256) as u8;
        file[first - 1] = (n % 256) as u8;
    }
}

fn damage(c: &mut Chance, mut file: Vec<u8>) -> Vec<u8> {
    match c.below(10) {
        0 | 1 => file.truncate(c.below(file.len() + 1)),
        2 => {
            for _ in 0..1 + c.below(8) {
                file.push(c.below(256) as u8);
            }
        }
        3..=5 => {
            for _ in 0..1 + c.below(3) {
                change_a_byte(c, &mut file);
            }
        }
        6 => {
            let first = events_at(&file);
            if file.len() > first {
                let at = first + c.below(file.len() - first);
                file[at] = c.below(256) as u8;
            }
        }
        _ => {
            for _ in 0..1 + c.below(2) {
                put_an_event(c, &mut file);
            }
        }
    }
    file
}

// The trace of a number: half of them are damaged, and a few are large.
pub fn trace(number: u64) -> Vec<u8> {
    let mut c = Chance::new(number);
    let n = match number % 50 {
        0 => 0,
        1 => 1_500,
        2 | 3 => 300,
        _ => c.below(60),
    };
    let file = valid(&mut c, n);
    if number % 2 == 1 && number % 50 != 1 { damage(&mut c, file) } else { file }
}
