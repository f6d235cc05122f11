//! A reader of scripts as one writes it by hand: what this repository's does with one data set and its lines, `append` aside.

/// A kind of which the measured scripts have fields.
#[derive(Clone, Copy)]
pub enum Kind {
    Boolean,
    UInt32,
    UInt64,
}

pub struct Field {
    pub name: &'static [u8],
    pub kind: Kind,
}

/// A data set without statuses, of which each field takes a word.
pub struct DataSet {
    pub name: &'static [u8],
    pub fields: Vec<Field>,
}

/// Names, where components are in the order of their ids, the first above all.
pub struct Config {
    pub set: DataSet,
    pub components: Vec<&'static [u8]>,
    pub readers: Vec<&'static [u8]>,
}

pub struct Patch {
    pub mask: u64,
    pub words: [u64; 125],
}

pub enum Fate {
    Drop,
    Repeat(u32),
    Hold(u64),
    Again(u64),
}

pub enum Act {
    Write { thread: u8, patch: Patch },
    Tick(u32),
    Enable(u8),
    Disable(u8),
    Fated { k: u64, fate: Fate },
    Watch { thread: u8, reader: u8, times: u32 },
}

pub struct Line {
    pub at: u32,
    pub act: Act,
}

#[derive(Debug, PartialEq)]
pub struct Refused {
    pub line: u32,
    pub code: u8,
}

/// What the lines so far have done.
struct Past {
    enabled: Vec<bool>,
    fated: Vec<u64>,
    ticks: usize,
    writes: usize,
    watches: usize,
}

/// How many lines a script may have that write, tick, give fates or watch.
const MOST_LINES: usize = 32_768 + 4096 + 256 + 64;

#[inline(never)]
pub fn read(config: &Config, bytes: &[u8]) -> Result<Vec<Line>, Refused> {
    let count = bytes.iter().filter(|byte| **byte == b'\n').count();
    let mut lines = Vec::with_capacity(count.min(MOST_LINES));
    let mut past = Past { enabled: vec![true; config.components.len()], fated: Vec::new(), ticks: 0, writes: 0, watches: 0 };
    let mut words = Vec::new();
    for (index, line) in bytes.split(|byte| *byte == b'\n').enumerate() {
        let at = index as u32 + 1;
        match act(config, &mut past, line, &mut words) {
            Ok(Some(act)) => lines.push(Line { at, act }),
            Ok(None) => (),
            Err(code) => return Err(Refused { line: at, code }),
        }
    }
    Ok(lines)
}

fn act<'a>(config: &Config, past: &mut Past, line: &'a [u8], words: &mut Vec<&'a [u8]>) -> Result<Option<Act>, u8> {
    if line.iter().any(|byte| !(0x20..=0x7e).contains(byte)) {
        return Err(1);
    }
    if line.len() > 1024 {
        return Err(2);
    }
    words.clear();
    words.extend(line.split(|byte| *byte == b' ').filter(|word| !word.is_empty()));
    let Some((first, rest)) = words.split_first() else {
        return Ok(None);
    };
    match *first {
        _ if first[0] == b'#' => Ok(None),
        b"write" => write(config, past, rest).map(Some),
        b"tick" => tick(past, rest).map(Some),
        b"enable" => Ok(Some(Act::Enable(switch(config, past, rest, true)?))),
        b"disable" => Ok(Some(Act::Disable(switch(config, past, rest, false)?))),
        b"fate" => fate(past, rest).map(Some),
        b"watch" => watch(config, past, rest).map(Some),
        _ => Err(3),
    }
}

fn write(config: &Config, past: &mut Past, words: &[&[u8]]) -> Result<Act, u8> {
    let [thread, set, fields @ ..] = words else {
        return Err(4);
    };
    if fields.is_empty() || fields.iter().any(|word| !word.contains(&b'=')) {
        return Err(4);
    }
    let thread = number(thread, 0, 7)? as u8;
    if *set != config.set.name {
        return Err(6);
    }
    let mask = mask(&config.set, fields)?;
    let mut patch = Patch { mask, words: [0; 125] };
    for word in fields {
        let (name, status, value) = parts(word);
        let (index, field) = field(&config.set, name).ok_or(7)?;
        if status.is_some_and(|status| hex32(status) != Some(0)) {
            return Err(8);
        }
        patch.words[index] = parsed(field.kind, value).ok_or(8)?;
    }
    past.writes = counted(past.writes, 32_768)?;
    Ok(Act::Write { thread, patch })
}

/// The fields that are named, each once.
fn mask(set: &DataSet, fields: &[&[u8]]) -> Result<u64, u8> {
    let mut mask = 0;
    for word in fields {
        let (index, _) = field(set, parts(word).0).ok_or(7)?;
        if mask >> index & 1 == 1 {
            return Err(7);
        }
        mask |= 1 << index;
    }
    Ok(mask)
}

/// `F=V` or `F!S=V`: field, status and value.
fn parts(word: &[u8]) -> (&[u8], Option<&[u8]>, &[u8]) {
    let end = word.iter().position(|byte| *byte == b'=').unwrap_or(word.len());
    let (front, value) = (&word[..end], &word[(end + 1).min(word.len())..]);
    match front.iter().position(|byte| *byte == b'!') {
        Some(mark) => (&front[..mark], Some(&front[mark + 1..]), value),
        None => (front, None, value),
    }
}

fn field<'a>(set: &'a DataSet, name: &[u8]) -> Option<(usize, &'a Field)> {
    set.fields.iter().enumerate().find(|(_, field)| field.name == name)
}

fn parsed(kind: Kind, word: &[u8]) -> Option<u64> {
    match kind {
        Kind::Boolean if word == b"true" => Some(1),
        Kind::Boolean if word == b"false" => Some(0),
        Kind::Boolean => None,
        Kind::UInt32 => decimal(word).filter(|n| *n <= u64::from(u32::MAX)),
        Kind::UInt64 => decimal(word),
    }
}

/// `0x` and eight lower-case digits.
fn hex32(word: &[u8]) -> Option<u32> {
    let digits = word.strip_prefix(b"0x")?;
    if digits.len() != 8 || digits.iter().any(|glyph| !matches!(glyph, b'0'..=b'9' | b'a'..=b'f')) {
        return None;
    }
    u32::from_str_radix(std::str::from_utf8(digits).ok()?, 16).ok()
}

fn decimal(word: &[u8]) -> Option<u64> {
    if word.is_empty() || (word[0] == b'0' && word.len() > 1) {
        return None;
    }
    word.iter().try_fold(0u64, |n, glyph| match glyph {
        b'0'..=b'9' => n.checked_mul(10)?.checked_add(u64::from(glyph - b'0')),
        _ => None,
    })
}

fn number(word: &[u8], least: u64, most: u64) -> Result<u64, u8> {
    decimal(word).filter(|n| (least..=most).contains(n)).ok_or(5)
}

fn counted(count: usize, most: usize) -> Result<usize, u8> {
    if count < most { Ok(count + 1) } else { Err(10) }
}

fn tick(past: &mut Past, words: &[&[u8]]) -> Result<Act, u8> {
    let [ms] = words else {
        return Err(4);
    };
    let ms = number(ms, 1, 3_600_000)? as u32;
    past.ticks = counted(past.ticks, 4096)?;
    Ok(Act::Tick(ms))
}

fn switch(config: &Config, past: &mut Past, words: &[&[u8]], on: bool) -> Result<u8, u8> {
    let [name] = words else {
        return Err(4);
    };
    let id = config.components.iter().position(|component| component == name).ok_or(6)?;
    if past.enabled[id] == on {
        return Err(9);
    }
    past.enabled[id] = on;
    Ok(id as u8)
}

fn fate(past: &mut Past, words: &[&[u8]]) -> Result<Act, u8> {
    let [k, word, rest @ ..] = words else {
        return Err(4);
    };
    let least = match *word {
        b"drop" | b"repeat" | b"hold" | b"again" => usize::from(*word != b"drop"),
        _ => return Err(3),
    };
    if rest.len() != least {
        return Err(4);
    }
    let k = number(k, 0, 1_000_000)?;
    let fate = match *word {
        b"drop" => Fate::Drop,
        b"repeat" => Fate::Repeat(number(rest[0], 2, 8)? as u32),
        b"hold" => Fate::Hold(number(rest[0], 0, 1_000_000)?),
        _ => Fate::Again(number(rest[0], 0, 1_000_000)?),
    };
    if past.fated.len() == 256 {
        return Err(10);
    }
    if past.fated.contains(&k) || matches!(fate, Fate::Hold(j) | Fate::Again(j) if j <= k) {
        return Err(11);
    }
    past.fated.push(k);
    Ok(Act::Fated { k, fate })
}

fn watch(config: &Config, past: &mut Past, words: &[&[u8]]) -> Result<Act, u8> {
    let [thread, reader, times] = words else {
        return Err(4);
    };
    let (thread, times) = (number(thread, 0, 7)? as u8, number(times, 1, 1000)? as u32);
    let reader = config.readers.iter().position(|name| name == reader).ok_or(6)? as u8;
    past.watches = counted(past.watches, 64)?;
    Ok(Act::Watch { thread, reader, times })
}
