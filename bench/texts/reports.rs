//! Reports as one writes them by hand, of a session with one data set of UInt32 fields, a group and a read group.

pub struct Session {
    pub set: &'static str,
    pub fields: Vec<String>,
    pub threads: Vec<u8>,
    pub group: &'static str,
    pub writers: Vec<Writer>,
    pub read_group: &'static str,
    pub taken: u64,
    pub readers: Vec<Reader>,
    pub watches: Vec<Watch>,
    pub link: [u64; 6],
}

pub struct Writer {
    pub name: String,
    pub log: Vec<(u64, u64)>,
}

pub struct Reader {
    pub name: String,
    pub number: Option<u16>,
    pub version: Option<u64>,
    pub row: Vec<u32>,
    pub breaks: u64,
    pub recent: Vec<(u16, u16)>,
}

pub struct Watch {
    pub thread: u8,
    pub reader: usize,
    pub counts: Vec<u64>,
}

fn put(out: &mut Vec<u8>, text: &str) {
    out.extend_from_slice(text.as_bytes());
}

fn put_number(out: &mut Vec<u8>, before: &str, mut number: u64) {
    put(out, before);
    let mut digits = [0; 20];
    let mut at = 20;
    loop {
        at -= 1;
        digits[at] = b'0' + (number % 10) as u8;
        number /= 10;
        if number == 0 {
            break;
        }
    }
    out.extend_from_slice(&digits[at..]);
}

fn put_or_dash(out: &mut Vec<u8>, before: &str, number: Option<u64>) {
    match number {
        Some(number) => put_number(out, before, number),
        None => {
            put(out, before);
            put(out, "-");
        }
    }
}

#[inline(never)]
pub fn report(session: &Session) -> Vec<u8> {
    let mut out = Vec::new();
    put(&mut out, "history ");
    put(&mut out, session.set);
    put_number(&mut out, " ", session.threads.len() as u64);
    put(&mut out, ":");
    for thread in &session.threads {
        put_number(&mut out, " ", u64::from(*thread));
    }
    put(&mut out, "\ngroup ");
    put(&mut out, session.group);
    put_number(&mut out, " operational sent ", session.link[0]);
    put(&mut out, "\n");
    for writer in &session.writers {
        put_writer(&mut out, writer);
    }
    put(&mut out, "readgroup ");
    put(&mut out, session.read_group);
    put_number(&mut out, " operational taken ", session.taken);
    put(&mut out, ":\n");
    for reader in &session.readers {
        put_reader(&mut out, session, reader);
    }
    for watch in &session.watches {
        put_watch(&mut out, session, watch);
    }
    let words = ["link sent ", " failed ", " received ", " broken ", " long ", " limit "];
    for (word, count) in words.iter().zip(session.link) {
        put_number(&mut out, word, count);
    }
    put(&mut out, "\nend\n");
    out
}

fn put_writer(out: &mut Vec<u8>, writer: &Writer) {
    put(out, "writer ");
    put(out, &writer.name);
    put_number(out, " operational ", writer.log.len() as u64);
    put(out, ":");
    for (place, version) in &writer.log {
        put_number(out, " ", *place);
        put_number(out, "=", *version);
    }
    put(out, "\n");
}

fn put_reader(out: &mut Vec<u8>, session: &Session, reader: &Reader) {
    put(out, "reader ");
    put(out, &reader.name);
    put_or_dash(out, " operational number ", reader.number.map(u64::from));
    put_or_dash(out, " version ", reader.version);
    put(out, ":");
    for (name, value) in session.fields.iter().zip(&reader.row) {
        put(out, " ");
        put(out, name);
        put_number(out, "=", u64::from(*value));
    }
    put(out, "\ngaps ");
    put(out, &reader.name);
    put_number(out, " ", reader.breaks);
    put(out, ":");
    for (expected, got) in &reader.recent {
        put_number(out, " ", u64::from(*expected));
        put_number(out, "/", u64::from(*got));
    }
    put(out, "\n");
}

fn put_watch(out: &mut Vec<u8>, session: &Session, watch: &Watch) {
    put_number(out, "watch ", u64::from(watch.thread));
    put(out, " ");
    put(out, &session.readers[watch.reader].name);
    put(out, ":");
    for count in &watch.counts {
        put_number(out, " ", *count);
    }
    put(out, "\n");
}
