// Times the calls of libbench_frames.a beside a plain hand-written codec, in turns, and prints the least time of each.
use std::hint::black_box;
use std::time::Instant;

unsafe extern "C" {
    fn bench_write(fields: u8, quality: bool, turns: u32, bytes: *mut u8, length: usize) -> usize;
    fn bench_read(fields: u8, quality: bool, turns: u32, bytes: *const u8, length: usize) -> u64;
}

/// A codec of key frames as one writes it by hand: kinds, metas, rows in words, and byte by byte what the standard says.
#[allow(dead_code)]
mod plain {
    #[derive(Clone, Copy, PartialEq)]
    pub enum Kind {
        Byte,
        UInt16,
        UInt32,
        UInt64,
        Text { cap: u16 },
    }

    pub struct Field {
        pub kind: Kind,
        pub start: usize,
    }

    pub struct Meta {
        pub fields: Vec<Field>,
        // the words of the values, behind which the statuses stand, two to a word
        words: usize,
    }

    impl Meta {
        pub fn new(kinds: &[Kind]) -> Meta {
            let mut fields = Vec::new();
            let mut start = 0;
            for kind in kinds {
                fields.push(Field { kind: *kind, start });
                start += match kind {
                    Kind::Text { cap } => 1 + (usize::from(*cap) + 7) / 8,
                    _ => 1,
                };
            }
            Meta { fields, words: start }
        }
    }

    #[derive(Clone, Copy)]
    pub struct Row {
        pub words: [u64; 125],
    }

    impl Row {
        #[inline(always)]
        fn status(&self, meta: &Meta, index: usize) -> u32 {
            (self.words[meta.words + index / 2] >> (32 * (index % 2))) as u32
        }

        #[inline(always)]
        pub fn set_status(&mut self, meta: &Meta, index: usize, status: u32) {
            let shift = 32 * (index % 2);
            let word = &mut self.words[meta.words + index / 2];
            *word = *word & !(0xffff_ffff << shift) | u64::from(status) << shift;
        }
    }

    pub struct Frame {
        pub number: u16,
        pub row: Row,
    }

    #[inline(always)]
    fn put(bytes: &mut [u8], at: &mut usize, text: &[u8]) -> Option<()> {
        bytes.get_mut(*at..*at + text.len())?.copy_from_slice(text);
        *at += text.len();
        Some(())
    }

    #[inline(never)]
    pub fn write(bytes: &mut [u8], meta: &Meta, frame: &Frame) -> Option<usize> {
        let mut at = 0;
        put(bytes, &mut at, &[9])?;
        put(bytes, &mut at, &frame.number.to_le_bytes())?;
        put(bytes, &mut at, &(meta.fields.len() as u16).to_le_bytes())?;
        for field in &meta.fields {
            let word = frame.row.words[field.start];
            match field.kind {
                Kind::Byte => put(bytes, &mut at, &[3, word as u8])?,
                Kind::UInt16 => {
                    put(bytes, &mut at, &[5])?;
                    put(bytes, &mut at, &(word as u16).to_le_bytes())?
                }
                Kind::UInt32 => {
                    put(bytes, &mut at, &[7])?;
                    put(bytes, &mut at, &(word as u32).to_le_bytes())?
                }
                Kind::UInt64 => {
                    put(bytes, &mut at, &[9])?;
                    put(bytes, &mut at, &word.to_le_bytes())?
                }
                Kind::Text { .. } => {
                    put(bytes, &mut at, &[12])?;
                    put(bytes, &mut at, &(word as u32).to_le_bytes())?;
                    for i in 0..word as usize {
                        let byte = frame.row.words[field.start + 1 + i / 8] >> (8 * (i % 8));
                        put(bytes, &mut at, &[byte as u8])?;
                    }
                }
            }
        }
        Some(at)
    }

    #[inline(always)]
    fn put_value(bytes: &mut [u8], at: &mut usize, field: &Field, row: &Row) -> Option<()> {
        let word = row.words[field.start];
        match field.kind {
            Kind::Byte => put(bytes, at, &[3, word as u8]),
            Kind::UInt16 => {
                put(bytes, at, &[5])?;
                put(bytes, at, &(word as u16).to_le_bytes())
            }
            Kind::UInt32 => {
                put(bytes, at, &[7])?;
                put(bytes, at, &(word as u32).to_le_bytes())
            }
            Kind::UInt64 => {
                put(bytes, at, &[9])?;
                put(bytes, at, &word.to_le_bytes())
            }
            Kind::Text { .. } => {
                put(bytes, at, &[12])?;
                put(bytes, at, &(word as u32).to_le_bytes())?;
                for i in 0..word as usize {
                    let byte = row.words[field.start + 1 + i / 8] >> (8 * (i % 8));
                    put(bytes, at, &[byte as u8])?;
                }
                Some(())
            }
        }
    }

    /// The same with quality: DataValues, of which the status Good is left out.
    #[inline(never)]
    pub fn write_with_quality(bytes: &mut [u8], meta: &Meta, frame: &Frame) -> Option<usize> {
        let mut at = 0;
        put(bytes, &mut at, &[0x0d])?;
        put(bytes, &mut at, &frame.number.to_le_bytes())?;
        put(bytes, &mut at, &(meta.fields.len() as u16).to_le_bytes())?;
        for (index, field) in meta.fields.iter().enumerate() {
            let status = frame.row.status(meta, index);
            if status == 0 {
                put(bytes, &mut at, &[1])?;
                put_value(bytes, &mut at, field, &frame.row)?;
            } else {
                put(bytes, &mut at, &[3])?;
                put_value(bytes, &mut at, field, &frame.row)?;
                put(bytes, &mut at, &status.to_le_bytes())?;
            }
        }
        Some(at)
    }

    #[inline(always)]
    fn take<'a>(bytes: &'a [u8], at: &mut usize, length: usize) -> Option<&'a [u8]> {
        let part = bytes.get(*at..*at + length)?;
        *at += length;
        Some(part)
    }

    fn number(bytes: &[u8]) -> u64 {
        bytes.iter().rev().fold(0, |n, byte| n << 8 | u64::from(*byte))
    }

    #[inline(always)]
    fn read_value(bytes: &[u8], at: &mut usize, field: &Field, row: &mut Row) -> Option<()> {
        let kind = take(bytes, at, 1)?[0];
        row.words[field.start] = match (kind, field.kind) {
            (3, Kind::Byte) => u64::from(take(bytes, at, 1)?[0]),
            (5, Kind::UInt16) => number(take(bytes, at, 2)?),
            (7, Kind::UInt32) => u64::from(u32::from_le_bytes(take(bytes, at, 4)?.try_into().ok()?)),
            (9, Kind::UInt64) => number(take(bytes, at, 8)?),
            (12, Kind::Text { cap }) => {
                let length = number(take(bytes, at, 4)?);
                if length > u64::from(cap) {
                    return None;
                }
                let text = take(bytes, at, length as usize)?;
                std::str::from_utf8(text).ok()?;
                for (i, part) in text.chunks(8).enumerate() {
                    row.words[field.start + 1 + i] = number(part);
                }
                length
            }
            _ => return None,
        };
        Some(())
    }

    #[inline(never)]
    pub fn read(meta: &Meta, bytes: &[u8]) -> Option<Frame> {
        let mut at = 0;
        if take(bytes, &mut at, 1)?[0] != 9 {
            return None;
        }
        let sequence = u16::from_le_bytes(take(bytes, &mut at, 2)?.try_into().ok()?);
        let count = u16::from_le_bytes(take(bytes, &mut at, 2)?.try_into().ok()?);
        if usize::from(count) != meta.fields.len() {
            return None;
        }
        let mut row = Row { words: [0; 125] };
        for field in &meta.fields {
            read_value(bytes, &mut at, field, &mut row)?;
        }
        if bytes[at..].iter().any(|byte| *byte != 0) {
            return None;
        }
        Some(Frame { number: sequence, row })
    }

    #[inline(always)]
    fn read_data_value(bytes: &[u8], at: &mut usize, meta: &Meta, index: usize, row: &mut Row) -> Option<()> {
        let mask = take(bytes, at, 1)?[0];
        read_value(bytes, at, &meta.fields[index], row)?;
        let status = match mask {
            1 => 0,
            3 => u32::from_le_bytes(take(bytes, at, 4)?.try_into().ok()?),
            _ => return None,
        };
        row.set_status(meta, index, status);
        Some(())
    }

    /// The same with quality.
    #[inline(never)]
    pub fn read_with_quality(meta: &Meta, bytes: &[u8]) -> Option<Frame> {
        let mut at = 0;
        if take(bytes, &mut at, 1)?[0] != 0x0d {
            return None;
        }
        let sequence = u16::from_le_bytes(take(bytes, &mut at, 2)?.try_into().ok()?);
        let count = u16::from_le_bytes(take(bytes, &mut at, 2)?.try_into().ok()?);
        if usize::from(count) != meta.fields.len() {
            return None;
        }
        let mut row = Row { words: [0; 125] };
        for index in 0..meta.fields.len() {
            read_data_value(bytes, &mut at, meta, index, &mut row)?;
        }
        if bytes[at..].iter().any(|byte| *byte != 0) {
            return None;
        }
        Some(Frame { number: sequence, row })
    }
}

const ROUNDS: usize = 300;
const TURNS: u32 = 1000;

fn keep_least(least: &mut f64, start: Instant) {
    let each = start.elapsed().as_secs_f64() * 1e9 / f64::from(TURNS);
    if each < *least {
        *least = each;
    }
}

type Write = fn(&mut [u8], &plain::Meta, &plain::Frame) -> Option<usize>;

type Read = fn(&plain::Meta, &[u8]) -> Option<plain::Frame>;

/// A status of the severity Uncertain at every fourth field, and Good at the others.
fn status(index: usize) -> u32 {
    if index % 4 == 3 { 0x4000_0000 } else { 0 }
}

fn row_of(meta: &plain::Meta, quality: bool) -> plain::Row {
    let mut row = plain::Row { words: [0; 125] };
    for index in 0..meta.fields.len() {
        row.words[index] = 0xff00_0000 | index as u64;
        if quality {
            row.set_status(meta, index, status(index));
        }
    }
    row
}

fn measure(fields: u8, quality: bool, write: Write, read: Read) -> [f64; 2] {
    let meta = plain::Meta::new(&vec![plain::Kind::UInt32; usize::from(fields)]);
    let row = row_of(&meta, quality);
    let mut frame = plain::Frame { number: 0, row };
    let (mut ours, mut theirs) = (vec![0u8; 4096], vec![0u8; 4096]);
    let [mut our_write, mut their_write, mut our_read, mut their_read] = [f64::MAX; 4];
    for _ in 0..ROUNDS {
        let start = Instant::now();
        let length = unsafe { bench_write(fields, quality, TURNS, ours.as_mut_ptr(), ours.len()) };
        keep_least(&mut our_write, start);
        let start = Instant::now();
        let mut end = 0;
        for turn in 0..TURNS {
            frame.number = turn as u16;
            end = write(black_box(&mut theirs), black_box(&meta), black_box(&frame)).expect("room");
        }
        keep_least(&mut their_write, start);
        assert!(length == end && ours[..length] == theirs[..end], "the frames differ");
        let start = Instant::now();
        let sum = unsafe { bench_read(fields, quality, TURNS, ours.as_ptr(), length) };
        keep_least(&mut our_read, start);
        let start = Instant::now();
        let mut other = read(&meta, &theirs[..end]).expect("a frame").row.words[usize::from(fields) + 1];
        for _ in 0..TURNS {
            let frame = read(black_box(&meta), black_box(&theirs[..end])).expect("a frame");
            other = other.wrapping_add(black_box(&frame).row.words[0]);
        }
        keep_least(&mut their_read, start);
        assert_eq!(sum, other, "what is read differs");
    }
    let kind = if quality { " with quality" } else { "" };
    println!("{fields:2} fields{kind}, write: {our_write:5.0} ns, by hand {their_write:5.0} ns, ratio {:.2}", their_write / our_write);
    println!("{fields:2} fields{kind}, read:  {our_read:5.0} ns, by hand {their_read:5.0} ns, ratio {:.2}", their_read / our_read);
    [our_write, our_read]
}

fn compare(quality: bool, write: Write, read: Read) {
    let twenty = measure(20, quality, write, read);
    let most = measure(64, quality, write, read);
    println!("64 fields to 20, at most 3.20: write {:.2}, read {:.2}", most[0] / twenty[0], most[1] / twenty[1]);
}

fn main() {
    compare(false, plain::write, plain::read);
    compare(true, plain::write_with_quality, plain::read_with_quality);
}
