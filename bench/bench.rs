//! Runs the library and a plain Rust program on the same requests, in one process, and compares answers and times: bench FOLDER.
//! With the cfg `before` the library of another checkout runs beside them, but for views in one call, which it may lack.
//!
//! A batch runs all requests of a file from the stored network, so often that it takes a millisecond. Before each run network
//! and output are restored, where they may change, within the measured time and for all programs alike; nothing is flushed from
//! the processor's caches. Batches of the programs and of passes alternate, and medians of the thread's processor time are printed.

#[path = "../library/gatekeeper.rs"]
mod gatekeeper;
#[cfg(before)]
#[path = "../target/bench/before.rs"]
mod before;
mod plain;

use gatekeeper::Question;
use std::hint::black_box;
use std::time::{Duration, Instant};

mod system {
    #[repr(C)]
    pub struct Time {
        pub seconds: i64,
        pub nanoseconds: i64,
    }

    extern "C" {
        pub fn clock_gettime(clock: i32, time: *mut Time) -> i32;
        pub fn mallopt(parameter: i32, value: i32) -> i32;
    }
}

const UNTOUCHED: u16 = 999;
const MOST_BATCHES: usize = 25;
const LEAST_BATCHES: usize = 3;
const LONGEST: Duration = Duration::from_millis(400);

enum Request {
    Event(usize, usize, usize),
    Set(usize, usize, usize),
    Find(usize, usize),
    List(usize, usize),
    View(usize, usize, usize),
    Suggest(usize, usize),
}

fn parsed(line: &str) -> Request {
    let mut words = line.split(' ');
    let name = words.next().unwrap();
    let numbers: Vec<usize> = words.map(|word| word.parse().expect("no number")).collect();
    match (name, numbers.as_slice()) {
        ("event", &[v, u, a]) => Request::Event(v, u, a),
        ("set", &[u, r, p]) => Request::Set(u, r, p),
        ("find", &[v, u]) => Request::Find(v, u),
        ("list", &[v, u]) => Request::List(v, u),
        ("view", &[v, u, o]) => Request::View(v, u, o),
        ("suggest", &[v, c]) => Request::Suggest(v, c),
        _ => panic!("a request that cannot be read: {line}"),
    }
}

struct Case {
    name: String,
    scheme: Vec<u8>,
    network: Vec<u8>,
    finds: Vec<Request>,
    mix: Vec<Request>,
    suggestions: Vec<Request>,
    views: Vec<Question>,
}

fn questioned(view: &Request) -> Question {
    match *view {
        Request::View(viewer, owner, item) => Question { viewer, owner, item, answer: u8::MAX },
        _ => panic!("no view"),
    }
}

fn read_case(folder: &str, name: &str) -> Case {
    let bytes = |kind| std::fs::read(format!("{folder}/{name}.{kind}")).expect("no such file");
    let requests = |kind| -> Vec<Request> {
        String::from_utf8(bytes(kind)).expect("no text").lines().map(parsed).collect()
    };
    Case {
        name: name.to_string(),
        scheme: bytes("scheme"),
        network: bytes("network"),
        finds: requests("finds"),
        mix: requests("mix"),
        suggestions: requests("suggestions"),
        views: requests("views").iter().map(questioned).collect(),
    }
}

/// What one of the programs works on, and what it answered: a count where members were written.
struct Run {
    network: Vec<u8>,
    output: [u16; 256],
    questions: Vec<Question>,
    answers: Vec<(u8, usize)>,
}

impl Run {
    fn new(case: &Case) -> Run {
        Run {
            network: case.network.clone(),
            output: [UNTOUCHED; 256],
            questions: Vec::new(),
            answers: Vec::with_capacity(1000),
        }
    }

    fn restore(&mut self, case: &Case) {
        self.network.copy_from_slice(&case.network);
        self.output = [UNTOUCHED; 256];
        self.answers.clear();
    }

    /// For what changes neither network nor output.
    fn restore_answers(&mut self, _: &Case) {
        self.answers.clear();
    }
}

fn listed(result: Result<usize, u8>) -> (u8, usize) {
    match result {
        Ok(count) => (0, count),
        Err(number) => (number, 0),
    }
}

macro_rules! define_ask {
    ($name:ident, $library:ident) => {
        fn $name(scheme: &[u8], run: &mut Run, request: &Request) -> (u8, usize) {
            match *request {
                Request::Event(v, u, a) => ($library::event(scheme, &mut run.network, v, u, a), 0),
                Request::Set(u, r, p) => ($library::set(scheme, &mut run.network, u, r, p), 0),
                Request::Find(v, u) => ($library::find(scheme, &run.network, v, u), 0),
                Request::List(v, u) => listed($library::list(scheme, &run.network, v, u, &mut run.output)),
                Request::View(v, u, o) => ($library::view(scheme, &run.network, v, u, o), 0),
                Request::Suggest(v, c) => listed($library::suggest(scheme, &run.network, v, c, &mut run.output)),
            }
        }
    };
}

define_ask!(ask_library, gatekeeper);
#[cfg(before)]
define_ask!(ask_before, before);

fn ask_plain<const FORM: u8>(scheme: &[u8], run: &mut Run, request: &Request) -> (u8, usize) {
    match *request {
        Request::Event(v, u, a) => (plain::event::<FORM>(scheme, &mut run.network, v, u, a), 0),
        Request::Set(u, r, p) => (plain::set(scheme, &mut run.network, u, r, p), 0),
        Request::Find(v, u) => (plain::find::<FORM>(scheme, &run.network, v, u), 0),
        Request::List(v, u) => listed(plain::list::<FORM>(scheme, &run.network, v, u, &mut run.output)),
        Request::View(v, u, o) => (plain::view::<FORM>(scheme, &run.network, v, u, o), 0),
        Request::Suggest(v, c) => listed(plain::suggest::<FORM>(scheme, &run.network, v, c, &mut run.output)),
    }
}

/// Each question answered by a view of its own.
fn ask_singly(run: &mut Run, questions: &[Question], view: impl Fn(&[u8], &Question) -> u8) -> (u8, usize) {
    run.questions.clear();
    run.questions.extend_from_slice(questions);
    for question in &mut run.questions {
        question.answer = view(&run.network, question);
    }
    (0, 0)
}

fn ask_library_singly(scheme: &[u8], run: &mut Run, questions: &Vec<Question>) -> (u8, usize) {
    ask_singly(run, questions, |network, asked| gatekeeper::view(scheme, network, asked.viewer, asked.owner, asked.item))
}

fn ask_plain_singly<const FORM: u8>(scheme: &[u8], run: &mut Run, questions: &Vec<Question>) -> (u8, usize) {
    ask_singly(run, questions, |network, asked| plain::view::<FORM>(scheme, network, asked.viewer, asked.owner, asked.item))
}

fn ask_library_at_once(scheme: &[u8], run: &mut Run, questions: &Vec<Question>) -> (u8, usize) {
    run.questions.clear();
    run.questions.extend_from_slice(questions);
    (gatekeeper::views(scheme, &run.network, &mut run.questions), 0)
}

/// One of the programs on what is asked of it: a request, or a list of questions.
type Ask<Asked> = fn(&[u8], &mut Run, &Asked) -> (u8, usize);

const COUNT: usize = if cfg!(before) { 5 } else { 4 };

const PROGRAMS: [(&str, Ask<Request>); COUNT] = [
    ("library", ask_library),
    ("lists", ask_plain::<{ plain::LISTS }>),
    ("pairs", ask_plain::<{ plain::PAIRS }>),
    ("rows", ask_plain::<{ plain::ROWS }>),
    #[cfg(before)]
    ("before", ask_before),
];

const VIEWS_PROGRAMS: [(&str, Ask<Vec<Question>>); 5] = [
    ("one call", ask_library_at_once),
    ("singly", ask_library_singly),
    ("lists", ask_plain_singly::<{ plain::LISTS }>),
    ("pairs", ask_plain_singly::<{ plain::PAIRS }>),
    ("rows", ask_plain_singly::<{ plain::ROWS }>),
];

/// Compares every answer, every output, every question and every byte of the network, request by request.
fn compare<Asked>(case: &Case, requests: &[Asked], library: Ask<Asked>, other: Ask<Asked>) {
    let (mut ours, mut theirs) = (Run::new(case), Run::new(case));
    for (i, request) in requests.iter().enumerate() {
        let answer = library(&case.scheme, &mut ours, request);
        assert_eq!(answer, other(&case.scheme, &mut theirs, request), "{} request {i}", case.name);
        assert!(ours.network == theirs.network, "{} network after request {i}", case.name);
        assert!(ours.output == theirs.output, "{} output after request {i}", case.name);
        assert!(ours.questions == theirs.questions, "{} questions after request {i}", case.name);
    }
}

/// The thread's processor time in seconds: what other processes take does not count.
fn processor_time() -> f64 {
    const OF_THREAD: i32 = 3;
    let mut time = system::Time { seconds: 0, nanoseconds: 0 };
    unsafe { system::clock_gettime(OF_THREAD, &mut time) };
    time.seconds as f64 + time.nanoseconds as f64 / 1e9
}

/// What is asked of the programs, and what a run needs before it.
struct Asking<'a, Asked, const N: usize> {
    requests: &'a [Asked],
    programs: [(&'static str, Ask<Asked>); N],
    restore: fn(&mut Run, &Case),
}

/// Seconds for each request of a batch.
fn batch<Asked, const N: usize>(case: &Case, asking: &Asking<Asked, N>, run: &mut Run, ask: Ask<Asked>, repeats: usize) -> f64 {
    let requests = asking.requests;
    let start = processor_time();
    for _ in 0..repeats {
        (asking.restore)(run, case);
        for request in requests {
            let answer = ask(black_box(&case.scheme), run, request);
            run.answers.push(answer);
        }
    }
    (processor_time() - start) / (repeats * requests.len()) as f64
}

fn median(times: &mut [f64]) -> f64 {
    times.sort_by(f64::total_cmp);
    times[times.len() / 2]
}

/// How often a batch is repeated so that it takes a millisecond or more.
fn repeats(seconds: f64, requests: usize) -> usize {
    (0.001 / (seconds * requests as f64)) as usize + 1
}

/// One pass over the bytes: their greatest, which the compiler finds sixteen at a time.
#[inline(never)]
fn greatest(bytes: &[u8]) -> u8 {
    bytes.iter().fold(0, |most, &byte| if byte > most { byte } else { most })
}

/// The same, by the greatest of each 64th byte.
#[inline(never)]
fn greatest_of_lanes(bytes: &[u8]) -> u8 {
    let mut lanes = [0; 64];
    let chunks = bytes.chunks_exact(64);
    let rest = chunks.remainder();
    for chunk in chunks {
        for i in 0..64 {
            lanes[i] = lanes[i].max(chunk[i]);
        }
    }
    greatest(&lanes).max(greatest(rest))
}

/// Seconds for one pass over the network: the faster of both, since where the linker places so small a loop can double its time.
fn pass(network: &[u8]) -> f64 {
    let repeats = 4_000_000 / (network.len() + 100);
    let seconds = |of: fn(&[u8]) -> u8| {
        let start = processor_time();
        for _ in 0..repeats {
            black_box(of(black_box(network)));
        }
        (processor_time() - start) / repeats as f64
    };
    seconds(greatest).min(seconds(greatest_of_lanes))
}

/// Medians of seconds for each request, of each program, and of one pass.
fn measure<Asked, const N: usize>(case: &Case, asking: &Asking<Asked, N>) -> ([f64; N], f64) {
    let mut runs = asking.programs.map(|_| Run::new(case));
    let mut times = asking.programs.map(|_| Vec::new());
    let mut passes = Vec::new();
    let mut counts = [1; N];
    for (i, (_, ask)) in asking.programs.into_iter().enumerate() {
        counts[i] = repeats(batch(case, asking, &mut runs[i], ask, 1), asking.requests.len());
    }
    let start = Instant::now();
    while passes.len() < LEAST_BATCHES || passes.len() < MOST_BATCHES && start.elapsed() < LONGEST {
        passes.push(pass(&case.network));
        for (i, (_, ask)) in asking.programs.into_iter().enumerate() {
            times[i].push(batch(case, asking, &mut runs[i], ask, counts[i]));
            assert!(runs[i].answers == runs[0].answers, "{}: answers of a batch", case.name);
            assert!(runs[i].questions == runs[0].questions, "{}: questions of a batch", case.name);
        }
    }
    (times.map(|mut of_program| median(&mut of_program)), median(&mut passes))
}

/// Whether a request on 256 members is as fast as wanted: a find, but where half of all pairs are friends, and a suggest there.
fn verdict(name: &str, kind: &str, times: [f64; COUNT], pass: f64) -> &'static str {
    let [library, lists, pairs, rows, ..] = times;
    let reached = match (kind, name.split('_').next()) {
        _ if !name.ends_with("_256") => return "",
        ("suggest", Some("half")) => rows >= library && lists.min(pairs) >= 5.0 * library,
        ("find", _) if name.contains("nested") => library < 0.05,
        ("find", Some("dense" | "full")) => lists >= 10.0 * library && library <= 12.0 * pass,
        ("find", Some("sparse" | "chain")) => lists.min(pairs) >= library,
        _ => return "",
    };
    verdict_text(reached)
}

/// Whether the one call is as fast as wanted of forty views of one viewer: on 256 members, dense and sparse.
fn views_verdict(name: &str, singly: f64, at_once: f64) -> &'static str {
    match name {
        "dense_standard_256" | "sparse_standard_256" => verdict_text(singly >= 10.0 * at_once),
        _ => "",
    }
}

fn verdict_text(reached: bool) -> &'static str {
    if reached { "reached" } else { "NOT REACHED" }
}

fn print_heads() {
    let rates: String = PROGRAMS.iter().map(|(name, _)| format!(" {:>9}", format!("{name}/s"))).collect();
    let ratios: String = PROGRAMS[1..].iter().map(|(name, _)| format!(" {:>8}", format!("x {name}"))).collect();
    println!("{:<28}{rates}{ratios} {:>10} {:>7}", "graph, scheme, members", "library us", "passes");
}

fn print_line(case: &Case, kind: &str, requests: &[Request]) {
    for (_, ask) in &PROGRAMS[1..] {
        compare(case, requests, ask_library, *ask);
    }
    let (times, pass) = measure(case, &Asking { requests, programs: PROGRAMS, restore: Run::restore });
    let library = times[0];
    let rates: String = times.iter().map(|time| format!(" {:>9.0}", 1.0 / time)).collect();
    let ratios: String = times[1..].iter().map(|time| format!(" {:>8.2}", time / library)).collect();
    let line = format!(
        "{:<20} {kind:<7}{rates}{ratios} {:>10.2} {:>7.1}  {}",
        case.name, library * 1e6, library / pass, verdict(&case.name, kind, times, pass)
    );
    println!("{}", line.trim_end());
}

fn print_views_heads() {
    println!(
        "{:<20} {:>11} {:>11} {:>8} {:>11}",
        "graph, members", "singly us", "one call us", "x singly", "plain us"
    );
}

fn print_views_line(case: &Case) {
    let lists = std::slice::from_ref(&case.views);
    for (_, ask) in &VIEWS_PROGRAMS[1..] {
        compare(case, lists, ask_library_at_once, *ask);
    }
    let asking = Asking { requests: lists, programs: VIEWS_PROGRAMS, restore: Run::restore_answers };
    let ([at_once, singly, lists, pairs, rows], _) = measure(case, &asking);
    let line = format!(
        "{:<20} {:>11.1} {:>11.1} {:>8.2} {:>11.1}  {}",
        case.name, singly * 1e6, at_once * 1e6, singly / at_once, lists.min(pairs).min(rows) * 1e6,
        views_verdict(&case.name, singly, at_once)
    );
    println!("{}", line.trim_end());
}

const EXPLAINED: &str = "\
Requests a second of the library, of a plain Rust program that lists every member's friends once a request (lists), of the same
program where it reads them off the pair bytes (pairs), and where it sets them as bits once a request (rows); how many times as
fast as each the library is; its time for a request in microseconds, and in passes over the network's bytes. Lists and pairs
count shared friends member by member, rows by words of 64 members. Network and output are restored before each run of a file,
within the measured time; caches are not flushed, and freed memory is kept. A suggest is for 20 members, and each member asks in
turn. Wanted of a find on 256 members: dense and full, 10 times as fast as lists and within 12 passes; sparse and chain, as fast
as the faster of lists and pairs; nested, below 50 milliseconds. Wanted of a suggest on 256 members where half of all pairs are
friends: as fast as rows, and 5 times as fast as the faster of lists and pairs.
";

const VIEWS_EXPLAINED: &str = "\
Forty views of one viewer, each of an owner and an item drawn from all: the microseconds that the library takes for all forty
singly and in one call, how many times the rate of single views the one call has, and what the plain program takes for all forty
singly, in its fastest form. The list is written anew before each run, within the measured time; network and output are not, since
no view changes them. Wanted of the one call on 256 members under the standard scheme, dense and sparse: 10 times the rate.
";

/// Has the allocator keep what is freed, so that the plain program does not pay for new pages at each request.
fn keep_freed_memory() {
    const TRIM_THRESHOLD: i32 = -1;
    unsafe { system::mallopt(TRIM_THRESHOLD, 1 << 28) };
}

fn main() {
    keep_freed_memory();
    let folder = std::env::args().nth(1).expect("bench FOLDER");
    let names = std::fs::read_to_string(format!("{folder}/names")).expect("no names");
    println!("{EXPLAINED}");
    if cfg!(before) {
        println!("Before is the library of another checkout, in the same run.\n");
    }
    print_heads();
    let cases: Vec<Case> = names.lines().map(|name| read_case(&folder, name)).collect();
    for case in &cases {
        print_line(case, "find", &case.finds);
        print_line(case, "mix", &case.mix);
        if !case.suggestions.is_empty() {
            print_line(case, "suggest", &case.suggestions);
        }
    }
    println!("\n{VIEWS_EXPLAINED}");
    print_views_heads();
    for case in cases.iter().filter(|case| !case.views.is_empty()) {
        print_views_line(case);
    }
}
