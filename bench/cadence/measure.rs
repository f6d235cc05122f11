// Times the calls of libbench_frames.a beside a plain writer and reader, in turns, and prints the least time of each.
use std::hint::black_box;
use std::time::Instant;

unsafe extern "C" {
    fn bench_quiet(fields: u8, turns: u32) -> u64;
    fn bench_held(fields: u8, turns: u32) -> u64;
}

/// A writer and a reader as one writes them by hand, over the same rows in words and the same frames.
#[allow(dead_code)]
mod plain {
    #[derive(Clone, Copy)]
    pub struct Field {
        pub start: usize,
        pub words: usize,
    }

    pub struct Meta {
        pub fields: Vec<Field>,
        pub major: u32,
        pub minor: u32,
    }

    #[derive(Clone, Copy, PartialEq)]
    pub struct Row {
        pub words: [u64; 125],
    }

    #[derive(Clone, Copy)]
    pub struct Patch {
        pub mask: u64,
        pub row: Row,
    }

    pub enum FrameKind {
        Whole(Row),
        Change(Patch),
        Alive,
    }

    pub struct Frame {
        pub number: Option<u16>,
        pub kind: FrameKind,
        pub major: Option<u32>,
        pub minor: Option<u32>,
    }

    pub enum Turn {
        Send(Frame),
        Quiet,
    }

    fn changed(meta: &Meta, old: &Row, new: &Row) -> Patch {
        let mut patch = Patch { mask: 0, row: Row { words: [0; 125] } };
        for (index, field) in meta.fields.iter().enumerate() {
            let at = field.start..field.start + field.words;
            if old.words[at.clone()] != new.words[at.clone()] {
                patch.mask |= 1 << index;
                patch.row.words[at.clone()].copy_from_slice(&new.words[at]);
            }
        }
        patch
    }

    pub struct Writer {
        key_frame_count: u32,
        keep_alive: u64,
        versions: bool,
        fresh: bool,
        since_key: u32,
        sent_at: u64,
        row: Row,
        next: u64,
        pub log: Vec<(u64, u64)>,
    }

    impl Writer {
        pub fn new(key_frame_count: u32, keep_alive: u64, versions: bool, turns: usize) -> Writer {
            Writer {
                key_frame_count,
                keep_alive,
                versions,
                fresh: true,
                since_key: 0,
                sent_at: 0,
                row: Row { words: [0; 125] },
                next: 0,
                log: Vec::with_capacity(turns),
            }
        }

        fn frame(&self, meta: &Meta, kind: FrameKind) -> Frame {
            Frame {
                number: Some(self.next as u16),
                kind,
                major: self.versions.then_some(meta.major),
                minor: self.versions.then_some(meta.minor),
            }
        }

        fn data_frame(&mut self, meta: &Meta, now: u64, row: &Row, version: u64, kind: FrameKind) -> Turn {
            let frame = self.frame(meta, kind);
            self.log.push((self.next, version));
            self.next += 1;
            self.row = *row;
            self.sent_at = now;
            Turn::Send(frame)
        }

        #[inline(never)]
        pub fn turn(&mut self, meta: &Meta, now: u64, row: &Row, version: u64, closing: bool) -> Turn {
            self.since_key += 1;
            if self.fresh || closing || self.since_key >= self.key_frame_count {
                self.fresh = false;
                self.since_key = 0;
                return self.data_frame(meta, now, row, version, FrameKind::Whole(*row));
            }
            if self.row != *row {
                let patch = changed(meta, &self.row, row);
                return self.data_frame(meta, now, row, version, FrameKind::Change(patch));
            }
            if self.keep_alive == 0 || now - self.sent_at < self.keep_alive {
                return Turn::Quiet;
            }
            self.sent_at = now;
            Turn::Send(self.frame(meta, FrameKind::Alive))
        }
    }

    #[derive(Clone, Copy, PartialEq)]
    pub enum Why {
        Start,
        Gap,
        Jump,
    }

    #[derive(Clone, Copy, PartialEq)]
    pub enum Outcome {
        Held,
        Alive,
        Older,
        Waiting(Why),
        WrongMajor(u32),
        Unnumbered,
    }

    pub struct Break {
        pub expected: u16,
        pub got: u16,
    }

    pub struct Reader {
        last: Option<u16>,
        stamp: Option<u32>,
        number: Option<u16>,
        holds: bool,
        row: Row,
        why: Why,
        breaks: Vec<Break>,
    }

    impl Reader {
        pub fn new() -> Reader {
            Reader {
                last: None,
                stamp: None,
                number: None,
                holds: false,
                row: Row { words: [0; 125] },
                why: Why::Start,
                breaks: Vec::with_capacity(8),
            }
        }

        pub fn row(&self) -> Option<&Row> {
            self.holds.then_some(&self.row)
        }

        fn mark(&mut self, stamp: u32) {
            let high = self.stamp.unwrap_or(stamp);
            if stamp.saturating_sub(high) >= 16384 {
                self.last = None;
                self.number = None;
                self.holds = false;
                self.why = Why::Jump;
            }
            self.stamp = Some(stamp.max(high));
        }

        fn wait(&mut self, broke: bool) -> Outcome {
            if broke {
                self.holds = false;
                self.number = None;
                self.why = Why::Gap;
            }
            Outcome::Waiting(self.why)
        }

        fn lay(&mut self, meta: &Meta, patch: &Patch) {
            let mut mask = patch.mask;
            while mask != 0 {
                let field = meta.fields[mask.trailing_zeros() as usize];
                let at = field.start..field.start + field.words;
                self.row.words[at.clone()].copy_from_slice(&patch.row.words[at]);
                mask &= mask - 1;
            }
        }

        fn record(&mut self, meta: &Meta, kind: &FrameKind, number: u16, broke: bool) -> Outcome {
            match kind {
                FrameKind::Whole(row) => {
                    self.row = *row;
                    self.holds = true;
                }
                FrameKind::Change(patch) if self.holds && !broke => self.lay(meta, patch),
                _ => return self.wait(broke),
            }
            self.number = Some(number);
            Outcome::Held
        }

        #[inline(never)]
        pub fn frame(&mut self, meta: &Meta, frame: &Frame, stamp: Option<u32>) -> (Outcome, bool) {
            if let Some(major) = frame.major
                && major != meta.major
            {
                return (Outcome::WrongMajor(major), false);
            }
            let Some(number) = frame.number else {
                return (Outcome::Unnumbered, false);
            };
            if let Some(stamp) = stamp {
                self.mark(stamp);
            }
            let silent = matches!(frame.kind, FrameKind::Alive);
            let place = number.wrapping_sub(u16::from(silent));
            let Some(last) = self.last.replace(place) else {
                return (self.record(meta, &frame.kind, number, false), false);
            };
            if place.wrapping_sub(last).wrapping_sub(1) >= 16384 {
                self.last = Some(last);
                return (if silent { Outcome::Alive } else { Outcome::Older }, false);
            }
            let broke = silent || number != last.wrapping_add(1);
            if broke {
                if self.breaks.len() == 8 {
                    self.breaks.remove(0);
                }
                self.breaks.push(Break { expected: last.wrapping_add(1), got: number });
            }
            (self.record(meta, &frame.kind, number, broke), broke)
        }
    }
}

const FIELDS: u8 = 20;
const ROUNDS: usize = 300;
const TURNS: u32 = 10_000;

/// The least time of a call on each side, in nanoseconds.
struct Least {
    ours: f64,
    by_hand: f64,
}

impl Least {
    fn new() -> Least {
        Least { ours: f64::MAX, by_hand: f64::MAX }
    }

    /// Times both sides once; they have to give the same.
    fn compare(&mut self, ours: impl Fn() -> u64, by_hand: impl Fn() -> u64) -> u64 {
        let result = keep_least(&mut self.ours, ours);
        assert_eq!(result, keep_least(&mut self.by_hand, by_hand), "the two sides differ");
        result
    }
}

impl std::fmt::Display for Least {
    fn fmt(&self, out: &mut std::fmt::Formatter<'_>) -> std::fmt::Result {
        let Least { ours, by_hand } = self;
        write!(out, "{ours:5.1} ns, by hand {by_hand:5.1} ns, ratio {:.2}", by_hand / ours)
    }
}

fn keep_least(least: &mut f64, calls: impl Fn() -> u64) -> u64 {
    let start = Instant::now();
    let result = calls();
    *least = least.min(start.elapsed().as_secs_f64() * 1e9 / f64::from(TURNS));
    result
}

fn meta() -> plain::Meta {
    let fields = (0..usize::from(FIELDS)).map(|start| plain::Field { start, words: 1 }).collect();
    plain::Meta { fields, major: 1, minor: 0 }
}

fn row() -> plain::Row {
    let mut row = plain::Row { words: [0; 125] };
    for index in 0..usize::from(FIELDS) {
        row.words[index] = 0xff00_0000 | index as u64;
    }
    row
}

fn quiet(meta: &plain::Meta, row: &plain::Row) -> u64 {
    let mut writer = plain::Writer::new(u32::MAX, 0, false, TURNS as usize);
    let mut quiet = 0;
    for turn in 0..TURNS {
        let answer = writer.turn(black_box(meta), u64::from(turn) * 100, black_box(row), 1, false);
        if let plain::Turn::Quiet = answer {
            quiet += 1;
        }
    }
    black_box(&writer.log);
    quiet
}

fn held(meta: &plain::Meta, row: &plain::Row) -> u64 {
    let mut reader = plain::Reader::new();
    let mut frame = plain::Frame { number: Some(0), kind: plain::FrameKind::Whole(*row), major: None, minor: None };
    reader.frame(meta, &frame, None);
    let middle = usize::from(FIELDS / 2);
    let mut patch = plain::Patch { mask: 1 << middle, row: plain::Row { words: [0; 125] } };
    patch.row.words[middle] = 7;
    frame.kind = plain::FrameKind::Change(patch);
    let mut held = 0;
    for turn in 0..TURNS {
        frame.number = Some((turn + 1) as u16);
        if reader.frame(black_box(meta), black_box(&frame), None).0 == plain::Outcome::Held {
            held += 1;
        }
    }
    held + reader.row().expect("a row").words[middle]
}

fn main() {
    let (meta, row) = (meta(), row());
    let [mut quiet_least, mut held_least] = [Least::new(), Least::new()];
    for _ in 0..ROUNDS {
        let turns = quiet_least.compare(|| unsafe { bench_quiet(FIELDS, TURNS) }, || quiet(&meta, &row));
        assert_eq!(turns, u64::from(TURNS) - 1, "a turn wasn't quiet");
        let frames = held_least.compare(|| unsafe { bench_held(FIELDS, TURNS) }, || held(&meta, &row));
        assert_eq!(frames, u64::from(TURNS) + 7, "a delta frame wasn't held");
    }
    println!("{FIELDS} fields, quiet turn:  {quiet_least}");
    println!("{FIELDS} fields, delta frame: {held_least}");
}
