// Times the calls of libbench_parts.a on the largest texts and on a tenth of them by turns, and prints the least time of each;
// scripts and reports beside plain hand-written Rust, by turns too. A whole and its tenth find the same machine: memory that
// was freed stays with the process, and the caches are filled with other bytes before each call. Else the largest blocks alone
// would be given back to the system and cleared page by page by the next call, and a tenth alone would stay in the caches: the
// lines of the longest script take 33 MB. With words CALL PART TURNS it makes a call on a part of the largest text so often,
// for a tool that counts its instructions, and prints how many bytes the text has.
use std::env::args;
use std::hint::black_box;
use std::sync::Mutex;

mod configs;
mod reports;
#[allow(dead_code)]
mod scripts;

unsafe extern "C" {
    fn bench_config(turns: u32, bytes: *const u8, length: usize) -> u32;
    fn bench_script(turns: u32, config: *const u8, config_length: usize, bytes: *const u8, length: usize) -> u32;
    fn script_sum(config: *const u8, config_length: usize, bytes: *const u8, length: usize) -> u64;
    fn bench_report(
        turns: u32,
        config: *const u8,
        config_length: usize,
        versions: u32,
        entries: u32,
        looks: u32,
        bytes: *mut u8,
        length: usize,
    ) -> usize;
    fn mallopt(parameter: i32, value: i32) -> i32;
    fn clock_gettime(clock: i32, time: *mut Timespec) -> i32;
}

const WHOLE: usize = 1_048_576;
const ROUNDS: u32 = 20;

/// More bytes than the caches have.
static OTHERS: Mutex<Vec<u8>> = Mutex::new(Vec::new());

const OTHER_BYTES: usize = 1 << 27;

fn fill_caches() {
    let mut others = OTHERS.lock().expect("one thread");
    others.resize(OTHER_BYTES, 0);
    others.iter_mut().step_by(64).for_each(|byte| *byte = byte.wrapping_add(1));
    black_box(&others);
}

#[repr(C)]
struct Timespec {
    seconds: i64,
    nanoseconds: i64,
}

/// Linux's clock of the thread's own time on a processor.
const CLOCK_THREAD_CPUTIME_ID: i32 = 3;

/// The time that this thread has had a processor, in microseconds: a long call is put off by other programs more often than a
/// short one.
fn moment() -> f64 {
    let mut time = Timespec { seconds: 0, nanoseconds: 0 };
    let end = unsafe { clock_gettime(CLOCK_THREAD_CPUTIME_ID, &mut time) };
    assert_eq!(end, 0);
    time.seconds as f64 * 1e6 + time.nanoseconds as f64 / 1e3
}

/// The time of a call, in microseconds.
fn time<T>(call: impl FnOnce() -> T) -> (f64, T) {
    fill_caches();
    let start = moment();
    let end = black_box(call());
    (moment() - start, end)
}

fn print_row(name: &str, whole: f64, tenth: f64) {
    println!("{name}: whole {whole:.0} us, a tenth {tenth:.0} us");
}

fn compare(name: &str, ours: f64, theirs: f64) {
    println!("{name}: {ours:.0} us, by hand {theirs:.0} us, ratio {:.2}", theirs / ours);
}

fn config_time(text: &str, end: u32) -> f64 {
    let (each, got) = time(|| unsafe { bench_config(1, black_box(text.as_ptr()), text.len()) });
    assert_eq!(got, end);
    each
}

fn config(name: &str, text: impl Fn(usize) -> String, end: u32) {
    let (whole, tenth) = (text(WHOLE), text(WHOLE / 10));
    let (mut of_whole, mut of_tenth) = (f64::MAX, f64::MAX);
    for _ in 0..ROUNDS {
        of_whole = of_whole.min(config_time(&whole, end));
        of_tenth = of_tenth.min(config_time(&tenth, end));
    }
    print_row(name, of_whole, of_tenth);
}

/// So many writes of two fields by eight threads, 32 bytes each: 32,768 of them are 1 MiB.
fn writes(count: usize) -> String {
    (0..count).map(|n| format!("write {} demo f0={:06} f3={:05}\n", n % 8, 100_000 + n, 10_000 + n % 90_000)).collect()
}

fn plain_config() -> scripts::Config {
    let fields = [b"f0".as_slice(), b"f1", b"f2", b"f3"];
    scripts::Config {
        set: scripts::DataSet {
            name: b"demo",
            fields: fields.map(|name| scripts::Field { name, kind: scripts::Kind::UInt32 }).into(),
        },
        components: vec![b"root", b"connection", b"g1", b"w1", b"rg1", b"r1"],
        readers: vec![b"r1"],
    }
}

/// The sum that `script_sum` makes.
fn plain_sum(lines: &[scripts::Line]) -> u64 {
    let mut sum = 0u64;
    for line in lines {
        sum = sum.wrapping_mul(31).wrapping_add(u64::from(line.at));
        if let scripts::Act::Write { patch, .. } = &line.act {
            sum = sum.wrapping_mul(31).wrapping_add(patch.mask);
            sum = patch.words.iter().fold(sum, |sum, word| sum.wrapping_add(*word));
        }
    }
    sum
}

fn assert_same(config: &str, plain: &scripts::Config, text: &str) {
    let lines = scripts::read(plain, text.as_bytes()).expect("accepted");
    let sum = unsafe { script_sum(config.as_ptr(), config.len(), text.as_ptr(), text.len()) };
    assert_eq!(sum, plain_sum(&lines), "the scripts differ");
}

/// The least times of reading a script, ours and by hand, each with what it takes to let its lines go.
struct Least {
    ours: f64,
    theirs: f64,
}

impl Least {
    const NONE: Least = Least { ours: f64::MAX, theirs: f64::MAX };

    /// A call reads the configuration too, whose time, `once`, is left out.
    fn take(&mut self, once: f64, config: &str, plain: &scripts::Config, text: &str) {
        let (each, end) = read_script(1, config, text);
        assert_eq!(end, 0);
        self.ours = self.ours.min(each - once);
        let (each, is_read) = time(|| black_box(scripts::read(black_box(plain), black_box(text.as_bytes()))).is_ok());
        assert!(is_read);
        self.theirs = self.theirs.min(each);
    }
}

fn read_script(turns: u32, config: &str, text: &str) -> (f64, u32) {
    time(|| unsafe { bench_script(turns, config.as_ptr(), config.len(), black_box(text.as_ptr()), text.len()) })
}

fn compare_scripts() {
    let (config, plain) = (configs::session(4, 1), plain_config());
    let (whole, tenth) = (writes(32_768), writes(3_276));
    assert_same(&config, &plain, &whole);
    assert_same(&config, &plain, &tenth);
    let once = (0..ROUNDS).map(|_| read_script(0, &config, &tenth).0).fold(f64::MAX, f64::min);
    let (mut of_whole, mut of_tenth) = (Least::NONE, Least::NONE);
    for _ in 0..ROUNDS {
        of_whole.take(once, &config, &plain, &whole);
        of_tenth.take(once, &config, &plain, &tenth);
    }
    compare("script, 32,768 writes", of_whole.ours, of_whole.theirs);
    compare("script, 3,276 writes", of_tenth.ours, of_tenth.theirs);
}

const WRITERS: usize = 16;
const FIELDS: usize = 64;

/// The session that `bench_report` makes.
fn session(versions: u32, entries: u32, looks: u32) -> reports::Session {
    let log: Vec<_> = (0..u64::from(entries)).map(|place| (place, place * 8)).collect();
    let reader = |number| reports::Reader {
        name: format!("r{number}"),
        number: Some(4096),
        version: Some(32_768),
        row: vec![0; FIELDS],
        breaks: 1000,
        recent: vec![(40_000, 40_002); 8],
    };
    reports::Session {
        set: "demo",
        fields: (0..FIELDS).map(|field| format!("f{field}")).collect(),
        threads: (0..versions).map(|version| (version % 8) as u8).collect(),
        group: "g1",
        writers: (1..=WRITERS).map(|number| reports::Writer { name: format!("w{number}"), log: log.clone() }).collect(),
        read_group: "rg1",
        taken: u64::from(entries),
        readers: (1..=WRITERS).map(reader).collect(),
        watches: (0..64u8)
            .map(|line| reports::Watch {
                thread: line / 8,
                reader: 0,
                counts: (0..u64::from(looks)).map(|look| look * 4).collect(),
            })
            .collect(),
        link: [u64::from(entries), 0, u64::from(entries), 0, 0, 0],
    }
}

const TURNS: u32 = 10;

/// The least times of a report, ours and by hand, and its bytes. A call that writes it more often makes the session once,
/// too, so ours is the difference.
fn report_times(config: &str, versions: u32, entries: u32, looks: u32) -> (f64, f64, f64) {
    let plain = session(versions, entries, looks);
    let theirs_text = reports::report(&plain);
    let mut text = vec![0; 2 * WHOLE];
    let mut make = |turns| {
        let (pointer, length) = (text.as_mut_ptr(), text.len());
        time(|| unsafe { bench_report(turns, config.as_ptr(), config.len(), versions, entries, looks, pointer, length) })
    };
    let (mut once, mut often, mut theirs) = (f64::MAX, f64::MAX, f64::MAX);
    let mut end = 0;
    for _ in 0..ROUNDS {
        let (each, _) = make(0);
        once = once.min(each);
        let (each, length) = make(TURNS);
        often = often.min(each);
        end = length;
        let (each, _) = time(|| reports::report(black_box(&plain)));
        theirs = theirs.min(each);
    }
    assert!(text[..end] == theirs_text, "the reports differ");
    ((often - once) / f64::from(TURNS), theirs, end as f64)
}

fn compare_reports() {
    let config = configs::session(FIELDS, WRITERS);
    let whole = report_times(&config, 32_768, 4097, 1000);
    let tenth = report_times(&config, 3_276, 409, 100);
    compare("report, the largest", whole.0, whole.1);
    compare("report, entries a tenth of it", tenth.0, tenth.1);
}

// the parameters of `mallopt`: how much free memory is given back to the system, and how many blocks are mapped alone
const M_TRIM_THRESHOLD: i32 = -1;
const M_MMAP_MAX: i32 = -4;

fn keep_freed_memory() {
    let is_set = unsafe { mallopt(M_TRIM_THRESHOLD, i32::MAX) & mallopt(M_MMAP_MAX, 0) };
    assert_eq!(is_set, 1);
}

fn compare_all() {
    config("configuration of 1 MiB, accepted, mostly comments", configs::accepted, 0);
    config("configuration of 1 MiB, too many data sets", configs::many_tables, 5);
    config("configuration of 1 MiB, unknown keys", configs::many_keys, 2);
    compare_scripts();
    compare_reports();
}

/// Reads a configuration so often; its bytes.
fn read_configs(turns: u32, text: String) -> usize {
    unsafe { bench_config(turns, text.as_ptr(), text.len()) };
    text.len()
}

/// Reads a script so often; its bytes.
fn read_scripts(turns: u32, text: String) -> usize {
    read_script(turns, &configs::session(4, 1), &text);
    text.len()
}

/// The same by hand.
fn read_scripts_by_hand(turns: u32, text: String) -> usize {
    let config = plain_config();
    for _ in 0..turns {
        assert!(black_box(scripts::read(black_box(&config), black_box(text.as_bytes()))).is_ok());
    }
    text.len()
}

/// Writes a report so often, and once more; its bytes.
fn write_reports(turns: u32, part: u32) -> usize {
    let config = configs::session(FIELDS, WRITERS);
    let mut text = vec![0; 2 * WHOLE];
    let (versions, entries, looks) = (32_768 / part, 4097 / part, 1000 / part);
    let (pointer, length) = (text.as_mut_ptr(), text.len());
    unsafe { bench_report(turns, config.as_ptr(), config.len(), versions, entries, looks, pointer, length) }
}

fn call_often(call: &str, part: u32, turns: u32) -> usize {
    let bytes = WHOLE / part as usize;
    match call {
        "comments" => read_configs(turns, configs::accepted(bytes)),
        "tables" => read_configs(turns, configs::many_tables(bytes)),
        "keys" => read_configs(turns, configs::many_keys(bytes)),
        "script" => read_scripts(turns, writes(bytes / 32)),
        "script_by_hand" => read_scripts_by_hand(turns, writes(bytes / 32)),
        "report" => write_reports(turns, part),
        _ => panic!("no call {call}"),
    }
}

fn main() {
    keep_freed_memory();
    let words: Vec<String> = args().skip(1).collect();
    match &words[..] {
        [] => compare_all(),
        [call, part, turns] => {
            let (part, turns) = (part.parse().expect("a number"), turns.parse().expect("a number"));
            println!("{}", call_often(call, part, turns));
        }
        _ => panic!("CALL PART TURNS, or nothing"),
    }
}
