// What `bench_cells` times, by hand in Rust: a sequence lock around 34 or 151 words, and a Mutex around the same row. It reads the
// same measures, and writes the same lines.
use std::io::{self, BufRead};
use std::sync::Mutex;
use std::sync::atomic::{AtomicU64, Ordering::SeqCst};
use std::thread;
use std::time::Instant;

const NARROW: usize = 34;
const WIDE: usize = 151;

/// Words under a version that is odd while one thread writes. Every step is SeqCst, as in the cell.
struct SeqLock<const WORDS: usize> {
    version: AtomicU64,
    words: [AtomicU64; WORDS],
}

impl<const WORDS: usize> SeqLock<WORDS> {
    fn new() -> SeqLock<WORDS> {
        SeqLock { version: AtomicU64::new(0), words: [const { AtomicU64::new(0) }; WORDS] }
    }

    fn gather(&self) -> [u64; WORDS] {
        let mut words = [0; WORDS];
        for (to, from) in words.iter_mut().zip(&self.words) {
            *to = from.load(SeqCst);
        }
        words
    }

    fn read(&self) -> [u64; WORDS] {
        loop {
            let version = self.version.load(SeqCst);
            if version % 2 == 0 {
                let words = self.gather();
                if self.version.load(SeqCst) == version {
                    return words;
                }
            }
            std::hint::spin_loop();
        }
    }

    /// Puts the new words where the expected ones stand; else answers those that do.
    fn exchange(&self, expected: &[u64; WORDS], new: &[u64; WORDS]) -> Result<(), [u64; WORDS]> {
        loop {
            let version = self.version.load(SeqCst);
            if version % 2 == 0 && self.version.compare_exchange(version, version + 1, SeqCst, SeqCst).is_ok() {
                let found = self.gather();
                let same = found == *expected;
                if same {
                    for (to, from) in self.words.iter().zip(new) {
                        to.store(*from, SeqCst);
                    }
                }
                self.version.store(if same { version + 2 } else { version }, SeqCst);
                return if same { Ok(()) } else { Err(found) };
            }
            std::hint::spin_loop();
        }
    }
}

/// Lays one field into the row and counts the version.
fn write<const WORDS: usize>(lock: &SeqLock<WORDS>, front: &mut [u64; WORDS], value: u64) {
    loop {
        let mut next = *front;
        next[0] += 1;
        next[2] = value;
        match lock.exchange(front, &next) {
            Ok(()) => {
                *front = next;
                return;
            }
            Err(found) => *front = found,
        }
    }
}

fn taken(line: &str) -> Option<u128> {
    let mut words = line.split_whitespace();
    match words.next()? {
        "narrow" => taken_of::<NARROW>(words),
        "wide" => taken_of::<WIDE>(words),
        _ => None,
    }
}

fn taken_of<'a, const WORDS: usize>(mut words: impl Iterator<Item = &'a str>) -> Option<u128> {
    let lock = SeqLock::<WORDS>::new();
    match words.next()? {
        "read" => {
            let calls: u32 = words.next()?.parse().ok()?;
            let mut front = [0; WORDS];
            let start = Instant::now();
            for _ in 0..calls {
                front = std::hint::black_box(lock.read());
            }
            std::hint::black_box(front);
            Some(start.elapsed().as_nanos())
        }
        "try_write" => {
            let calls: u32 = words.next()?.parse().ok()?;
            let mut front = [0; WORDS];
            let start = Instant::now();
            for _ in 0..calls {
                write(&lock, &mut front, 7);
            }
            Some(start.elapsed().as_nanos())
        }
        "threads" => {
            let threads: usize = words.next()?.parse().ok()?;
            let calls: u32 = words.next()?.parse().ok()?;
            let row = Mutex::new([0u64; WORDS]);
            let start = Instant::now();
            thread::scope(|scope| {
                for _ in 0..threads {
                    scope.spawn(|| {
                        for _ in 0..calls {
                            let mut row = row.lock().unwrap();
                            row[0] += 1;
                            row[2] = 7;
                        }
                    });
                }
            });
            Some(start.elapsed().as_nanos())
        }
        _ => None,
    }
}

fn main() {
    for line in io::stdin().lock().lines() {
        let line = line.unwrap();
        match taken(&line) {
            Some(nanoseconds) => println!("{line} {nanoseconds}"),
            None => println!("{line} is no measure"),
        }
    }
}
