// Writes a full recording to standard output: record EVENTS THREADS OBJECTS VARIABLES > FILE
// All threads are forked first. Then each thread in turn, by chance, acquires a mutex, touches variables and releases it again.
use std::io::Write;

struct Chance(u64);

impl Chance {
    fn below(&mut self, n: usize) -> usize {
        self.0 = self.0.wrapping_mul(6_364_136_223_846_793_005).wrapping_add(1_442_695_040_888_963_407);
        ((self.0 >> 33) % n as u64) as usize
    }
}

fn two(file: &mut Vec<u8>, n: usize) {
    file.push((n / 256) as u8);
    file.push((n % 256) as u8);
}

fn event(file: &mut Vec<u8>, letter: u8, thread: usize, number: usize) {
    file.push(letter);
    file.push(thread as u8);
    two(file, number);
    two(file, 0);
}

fn main() {
    let args: Vec<usize> = std::env::args().skip(1).map(|a| a.parse().expect("usage: record EVENTS THREADS OBJECTS VARIABLES")).collect();
    let [events, threads, objects, variables] = args[..] else { panic!("usage: record EVENTS THREADS OBJECTS VARIABLES") };
    let mut file = b"TC\x01".to_vec();
    two(&mut file, threads);
    (0..threads).for_each(|_| file.extend(b"\x01t"));
    two(&mut file, objects);
    (0..objects).for_each(|_| file.extend(b"m\x01o"));
    two(&mut file, variables);
    (0..variables).for_each(|_| file.extend(b"\x01v"));
    two(&mut file, events / 65_536);
    two(&mut file, events % 65_536);
    let mut c = Chance(1);
    let mut n = 0;
    for t in 1..threads {
        event(&mut file, b'f', 0, t);
        event(&mut file, b'b', t, t);
        n += 2;
    }
    let mut held: Vec<Option<usize>> = vec![None; threads];
    let mut free = vec![true; objects];
    while n < events {
        let t = c.below(threads);
        match (c.below(10), held[t]) {
            (0 | 1, None) if objects > 0 => {
                let m = c.below(objects);
                if !free[m] {
                    continue;
                }
                free[m] = false;
                held[t] = Some(m);
                event(&mut file, b'a', t, m);
            }
            (0 | 1, Some(m)) => {
                free[m] = true;
                held[t] = None;
                event(&mut file, b'l', t, m);
            }
            (k, _) => {
                let v = c.below(variables);
                event(&mut file, if k < 5 { b'w' } else { b'r' }, t, v);
            }
        }
        n += 1;
    }
    std::io::stdout().write_all(&file).unwrap();
}
