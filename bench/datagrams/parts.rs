// Times the calls on headers, payloads and chunks of libbench_parts.a beside plain hand-written code, in turns, and prints
// the least time of each.
use std::hint::black_box;
use std::time::Instant;

unsafe extern "C" {
    fn bench_write_header(parts: u8, turns: u32, bytes: *mut u8, length: usize) -> usize;
    fn bench_read_header(place: usize, turns: u32, bytes: *mut u8, length: usize) -> u64;
    fn bench_split(count: u8, turns: u32, payload: *const u8, length: usize) -> u64;
    fn bench_join(turns: u32, message: *const u8, length: usize) -> u64;
}

/// Headers, payloads and chunks as one writes them by hand, part by part, with every bound looked at.
mod plain {
    #[derive(Clone, Copy)]
    pub enum Id<'a> {
        U8(u8),
        U16(u16),
        U32(u32),
        U64(u64),
        Text(&'a str),
    }

    #[derive(Clone, Copy)]
    pub enum Ids<'a> {
        None,
        List(&'a [u8]),
        Chunk(u16),
    }

    #[derive(Clone, Copy)]
    pub struct Security<'a> {
        pub flags: u8,
        pub token: u32,
        pub nonce: &'a [u8],
    }

    #[derive(Clone, Copy)]
    pub struct Header<'a> {
        pub id: Option<Id<'a>>,
        pub class: Option<[u8; 16]>,
        pub group: Option<u16>,
        pub version: Option<u32>,
        pub number: Option<u16>,
        pub sequence: Option<u16>,
        pub ids: Ids<'a>,
        pub security: Option<Security<'a>>,
    }

    fn put(bytes: &mut [u8], at: &mut usize, text: &[u8]) -> Option<()> {
        bytes.get_mut(*at..*at + text.len())?.copy_from_slice(text);
        *at += text.len();
        Some(())
    }

    fn put_id(bytes: &mut [u8], at: &mut usize, id: &Id) -> Option<()> {
        match id {
            Id::U8(id) => put(bytes, at, &[*id]),
            Id::U16(id) => put(bytes, at, &id.to_le_bytes()),
            Id::U32(id) => put(bytes, at, &id.to_le_bytes()),
            Id::U64(id) => put(bytes, at, &id.to_le_bytes()),
            Id::Text(text) => {
                put(bytes, at, &(text.len() as u32).to_le_bytes())?;
                put(bytes, at, text.as_bytes())
            }
        }
    }

    fn put_group(bytes: &mut [u8], at: &mut usize, header: &Header) -> Option<()> {
        let version = u8::from(header.version.is_some()) << 1;
        let number = u8::from(header.number.is_some()) << 2;
        let sequence = u8::from(header.sequence.is_some()) << 3;
        put(bytes, at, &[u8::from(header.group.is_some()) | version | number | sequence])?;
        if let Some(group) = header.group {
            put(bytes, at, &group.to_le_bytes())?;
        }
        if let Some(version) = header.version {
            put(bytes, at, &version.to_le_bytes())?;
        }
        if let Some(number) = header.number {
            put(bytes, at, &number.to_le_bytes())?;
        }
        if let Some(sequence) = header.sequence {
            put(bytes, at, &sequence.to_le_bytes())?;
        }
        Some(())
    }

    #[inline(never)]
    pub fn write(bytes: &mut [u8], header: &Header) -> Option<usize> {
        let mut at = 0;
        let kind = match header.id {
            None | Some(Id::U8(_)) => 0,
            Some(Id::U16(_)) => 1,
            Some(Id::U32(_)) => 2,
            Some(Id::U64(_)) => 3,
            Some(Id::Text(_)) => 4,
        };
        let chunk = matches!(header.ids, Ids::Chunk(_));
        let class = u8::from(header.class.is_some()) << 3;
        let first = kind | class | u8::from(header.security.is_some()) << 4 | u8::from(chunk) << 7;
        let listed = u8::from(!matches!(header.ids, Ids::None)) << 6;
        put(bytes, &mut at, &[0x31 | listed | u8::from(first != 0) << 7])?;
        if first != 0 {
            put(bytes, &mut at, &[first])?;
        }
        if chunk {
            put(bytes, &mut at, &[1])?;
        }
        if let Some(id) = &header.id {
            put_id(bytes, &mut at, id)?;
        }
        if let Some(class) = &header.class {
            put(bytes, &mut at, class)?;
        }
        put_group(bytes, &mut at, header)?;
        match header.ids {
            Ids::None => {}
            Ids::List(ids) => {
                put(bytes, &mut at, &[(ids.len() / 2) as u8])?;
                put(bytes, &mut at, ids)?;
            }
            Ids::Chunk(id) => put(bytes, &mut at, &id.to_le_bytes())?,
        }
        if let Some(security) = &header.security {
            put(bytes, &mut at, &[security.flags])?;
            put(bytes, &mut at, &security.token.to_le_bytes())?;
            put(bytes, &mut at, &[security.nonce.len() as u8])?;
            put(bytes, &mut at, security.nonce)?;
        }
        Some(at)
    }

    fn take<'a>(bytes: &'a [u8], at: &mut usize, length: usize) -> Option<&'a [u8]> {
        let part = bytes.get(*at..(*at).checked_add(length)?)?;
        *at += length;
        Some(part)
    }

    fn byte(bytes: &[u8], at: &mut usize) -> Option<u8> {
        Some(take(bytes, at, 1)?[0])
    }

    fn u16_of(bytes: &[u8], at: &mut usize) -> Option<u16> {
        Some(u16::from_le_bytes(take(bytes, at, 2)?.try_into().ok()?))
    }

    fn u32_of(bytes: &[u8], at: &mut usize) -> Option<u32> {
        Some(u32::from_le_bytes(take(bytes, at, 4)?.try_into().ok()?))
    }

    fn read_id<'a>(bytes: &'a [u8], at: &mut usize, kind: u8) -> Option<Id<'a>> {
        Some(match kind {
            0 => Id::U8(byte(bytes, at)?),
            1 => Id::U16(u16_of(bytes, at)?),
            2 => Id::U32(u32_of(bytes, at)?),
            3 => Id::U64(u64::from_le_bytes(take(bytes, at, 8)?.try_into().ok()?)),
            _ => {
                let length = u32_of(bytes, at)?.cast_signed();
                if length < -1 {
                    return None;
                }
                Id::Text(std::str::from_utf8(take(bytes, at, length.max(0) as usize)?).ok()?)
            }
        })
    }

    fn read_security<'a>(bytes: &'a [u8], at: &mut usize) -> Option<Security<'a>> {
        let flags = byte(bytes, at)?;
        if flags & 0xf0 != 0 {
            return None;
        }
        let token = u32_of(bytes, at)?;
        let length = byte(bytes, at)?;
        let nonce = take(bytes, at, usize::from(length))?;
        if flags & 4 != 0 {
            take(bytes, at, 2)?;
        }
        Some(Security { flags, token, nonce })
    }

    #[inline(never)]
    pub fn read(bytes: &[u8]) -> Option<(Header<'_>, usize)> {
        let mut at = 0;
        let flags = byte(bytes, &mut at)?;
        if flags & 0x0f != 1 {
            return None;
        }
        let first = if flags & 0x80 != 0 { byte(bytes, &mut at)? } else { 0 };
        if first & 7 > 4 {
            return None;
        }
        let second = if first & 0x80 != 0 { byte(bytes, &mut at)? } else { 0 };
        if second & 0xfc != 0 || second & 1 != 0 && flags & 0x40 == 0 {
            return None;
        }
        let id = if flags & 0x10 != 0 { Some(read_id(bytes, &mut at, first & 7)?) } else { None };
        let class = if first & 8 != 0 { Some(take(bytes, &mut at, 16)?.try_into().ok()?) } else { None };
        let (mut group, mut version, mut number, mut sequence) = (None, None, None, None);
        if flags & 0x20 != 0 {
            let parts = byte(bytes, &mut at)?;
            if parts & 0xf0 != 0 {
                return None;
            }
            if parts & 1 != 0 {
                group = Some(u16_of(bytes, &mut at)?);
            }
            if parts & 2 != 0 {
                version = Some(u32_of(bytes, &mut at)?);
            }
            if parts & 4 != 0 {
                number = Some(u16_of(bytes, &mut at)?);
            }
            if parts & 8 != 0 {
                sequence = Some(u16_of(bytes, &mut at)?);
            }
        }
        let ids = if flags & 0x40 == 0 {
            Ids::None
        } else if second & 1 != 0 {
            Ids::Chunk(u16_of(bytes, &mut at)?)
        } else {
            let count = byte(bytes, &mut at)?;
            Ids::List(take(bytes, &mut at, 2 * usize::from(count))?)
        };
        if first & 0x20 != 0 {
            take(bytes, &mut at, 8)?;
        }
        if first & 0x40 != 0 {
            take(bytes, &mut at, 2)?;
        }
        if second & 2 != 0 {
            let length = u16_of(bytes, &mut at)?;
            take(bytes, &mut at, usize::from(length))?;
        }
        let security = if first & 0x10 != 0 { Some(read_security(bytes, &mut at)?) } else { None };
        Some((Header { id, class, group, version, number, sequence, ids, security }, at))
    }

    pub struct Parts {
        pub ranges: [(usize, usize); 255],
        pub count: usize,
    }

    #[inline(never)]
    pub fn split(payload: &[u8], count: u8, parts: &mut Parts) -> Option<()> {
        let count = usize::from(count);
        parts.count = 0;
        if count == 1 {
            parts.ranges[0] = (0, payload.len());
            parts.count = 1;
            return Some(());
        }
        let mut start = 2 * count;
        for (i, size) in payload.get(..start)?.chunks_exact(2).enumerate() {
            let end = start + usize::from(u16::from_le_bytes([size[0], size[1]]));
            if end > payload.len() {
                return None;
            }
            parts.ranges[i] = (start, end);
            start = end;
        }
        parts.count = count;
        Some(())
    }

    /// One message at a time, with a bit for each byte that came.
    pub struct Joiner {
        pub current: Option<(u16, u32, bool)>,
        pub cover: [u64; 64],
        pub bytes: [u8; 4096],
    }

    fn mark(cover: &mut [u64; 64], first: usize, end: usize) {
        for (index, word) in cover.iter_mut().enumerate().take(end.div_ceil(64)).skip(first / 64) {
            let low = first.max(64 * index) - 64 * index;
            let high = end.min(64 * index + 64) - 64 * index;
            *word |= u64::MAX << low & u64::MAX >> (64 - high);
        }
    }

    fn is_full(cover: &[u64; 64], total: usize) -> bool {
        let last = total % 64;
        cover[..total / 64].iter().all(|word| *word == u64::MAX)
            && (last == 0 || cover[total / 64] | u64::MAX << last == u64::MAX)
    }

    impl Joiner {
        #[inline(never)]
        pub fn chunk(&mut self, number: u16, offset: u32, total: u32, part: &[u8]) -> Option<u32> {
            if part.is_empty() || u64::from(offset) + part.len() as u64 > u64::from(total) || total > 4096 {
                return None;
            }
            match self.current {
                Some((now, first, whole)) if now == number => {
                    if whole || first != total {
                        return None;
                    }
                }
                Some((now, ..)) if number.wrapping_sub(now).wrapping_sub(1) >= 16384 => return None,
                _ => self.cover = [0; 64],
            }
            let (first, end) = (offset as usize, offset as usize + part.len());
            self.bytes[first..end].copy_from_slice(part);
            mark(&mut self.cover, first, end);
            let whole = is_full(&self.cover, total as usize);
            self.current = Some((number, total, whole));
            whole.then_some(total)
        }
    }
}

const ROUNDS: usize = 300;
const TURNS: u32 = 1000;

/// Where the sequence number stands in the header that is measured.
const SEQUENCE: usize = 7;

fn timed<T>(least: &mut f64, call: impl FnOnce() -> T) -> T {
    let start = Instant::now();
    let answer = call();
    let each = start.elapsed().as_secs_f64() * 1e9 / f64::from(TURNS);
    if each < *least {
        *least = each;
    }
    answer
}

fn print(call: &str, ours: f64, theirs: f64) {
    println!("{call}: {ours:6.1} ns, by hand {theirs:6.1} ns, ratio {:.2}", theirs / ours);
}

fn headers() {
    let [mut our_write, mut their_write, mut our_read, mut their_read] = [f64::MAX; 4];
    let (mut ours, mut theirs) = ([0u8; 64], [0u8; 64]);
    let ids = [1, 0, 2, 0];
    let header = plain::Header {
        id: Some(plain::Id::U16(2234)),
        class: None,
        group: Some(100),
        version: None,
        number: None,
        sequence: Some(2),
        ids: plain::Ids::List(&ids),
        security: None,
    };
    for _ in 0..ROUNDS {
        let length = timed(&mut our_write, || unsafe { bench_write_header(1, TURNS, ours.as_mut_ptr(), ours.len()) });
        let end = timed(&mut their_write, || {
            let mut end = 0;
            for _ in 0..TURNS {
                end = plain::write(black_box(&mut theirs), black_box(&header)).expect("room");
            }
            end
        });
        assert!(length == end && ours[..end] == theirs[..end], "the headers differ");
        let sum = timed(&mut our_read, || unsafe { bench_read_header(SEQUENCE, TURNS, ours.as_mut_ptr(), length) });
        let other = timed(&mut their_read, || {
            let mut sum = 0u64;
            for turn in 0..TURNS {
                theirs[SEQUENCE] = turn as u8;
                let (header, end) = plain::read(black_box(&theirs[..end])).expect("a header");
                sum += u64::from(black_box(&header).sequence.unwrap_or(0)) + end as u64;
            }
            sum
        });
        assert_eq!(sum, other, "what is read differs");
    }
    print("write a header with two ids", our_write, their_write);
    print("read a header with two ids ", our_read, their_read);
}

fn payloads() {
    let [mut ours, mut theirs] = [f64::MAX; 2];
    let mut payload = Vec::new();
    for size in 0u16..16 {
        payload.extend((20 + size).to_le_bytes());
    }
    payload.resize(32 + 16 * 20 + 120, 7);
    let mut parts = plain::Parts { ranges: [(0, 0); 255], count: 0 };
    for _ in 0..ROUNDS {
        let sum = timed(&mut ours, || unsafe { bench_split(16, TURNS, payload.as_ptr(), payload.len()) });
        let other = timed(&mut theirs, || {
            let mut sum = 0u64;
            for _ in 0..TURNS {
                plain::split(black_box(&payload), black_box(16), black_box(&mut parts)).expect("good sizes");
                sum += parts.ranges[parts.count - 1].1 as u64;
            }
            sum
        });
        assert_eq!(sum, other, "the parts differ");
    }
    print("split 16 frames            ", ours, theirs);
}

fn messages() {
    let [mut ours, mut theirs] = [f64::MAX; 2];
    let message: Vec<u8> = (0..1200u32).map(|i| (3 * i) as u8).collect();
    let mut joiner = plain::Joiner { current: None, cover: [0; 64], bytes: [0; 4096] };
    for _ in 0..ROUNDS {
        joiner.current = None;
        let sum = timed(&mut ours, || unsafe { bench_join(TURNS, message.as_ptr(), message.len()) });
        let other = timed(&mut theirs, || {
            let mut sum = 0u64;
            for turn in 0..TURNS {
                let message = black_box(&message);
                for (k, part) in message.chunks(400).enumerate() {
                    let whole = joiner.chunk(turn as u16, 400 * k as u32, message.len() as u32, black_box(part));
                    sum += u64::from(whole.unwrap_or(0));
                }
            }
            sum
        });
        assert!(sum == other && joiner.bytes[..1200] == message[..], "the messages differ");
    }
    print("join three chunks of 400   ", ours, theirs);
}

fn main() {
    headers();
    payloads();
    messages();
}
