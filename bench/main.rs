//! Runs our library, the same rules in plain Rust, and a reader on libfdt on the same inputs in one process. First each answer of the
//! plain readers is compared with ours, on every blob and on damaged copies of it; then it measures, and prints docs/PERFORMANCE.md's tables.

use std::hint::black_box;
use std::path::{Path, PathBuf};
use std::{env, fs, process, thread};

mod plain;

use plain::{Bits, Index, Rows, Scan};

mod ours {
    unsafe extern "C" {
        pub fn bench_open(bytes: *const u8, count: usize) -> u32;
        pub fn bench_plan(bytes: *const u8, count: usize) -> u32;
        pub fn bench_nodes(bytes: *const u8, count: usize) -> usize;
        pub fn bench_routes(bytes: *const u8, count: usize) -> usize;
        pub fn bench_tree_sum(bytes: *const u8, count: usize) -> u64;
        pub fn bench_plan_sum(bytes: *const u8, count: usize) -> u64;
        pub fn bench_run(
            bytes: *const u8,
            count: usize,
            calls: *const u32,
            calls_count: usize,
            times: u32,
        ) -> u64;
        pub fn bench_one_call(bytes: *const u8, count: usize, call: u32) -> u64;
        pub fn bench_board_size() -> usize;
        pub fn bench_plan_size() -> usize;
    }

    pub fn open(b: &[u8]) -> u32 {
        unsafe { bench_open(b.as_ptr(), b.len()) }
    }
    pub fn plan(b: &[u8]) -> u32 {
        unsafe { bench_plan(b.as_ptr(), b.len()) }
    }
    pub fn nodes(b: &[u8]) -> usize {
        unsafe { bench_nodes(b.as_ptr(), b.len()) }
    }
    pub fn routes(b: &[u8]) -> usize {
        unsafe { bench_routes(b.as_ptr(), b.len()) }
    }
    pub fn tree_sum(b: &[u8]) -> u64 {
        unsafe { bench_tree_sum(b.as_ptr(), b.len()) }
    }
    pub fn plan_sum(b: &[u8]) -> u64 {
        unsafe { bench_plan_sum(b.as_ptr(), b.len()) }
    }
    pub fn run(b: &[u8], calls: &[u32], times: u32) -> u64 {
        unsafe { bench_run(b.as_ptr(), b.len(), calls.as_ptr(), calls.len(), times) }
    }
    pub fn one_call(b: &[u8], call: u32) -> u64 {
        unsafe { bench_one_call(b.as_ptr(), b.len(), call) }
    }
    pub fn board_size() -> usize {
        unsafe { bench_board_size() }
    }
    pub fn plan_size() -> usize {
        unsafe { bench_plan_size() }
    }
}

mod fdt {
    unsafe extern "C" {
        fn reader_check(bytes: *const u8, count: usize) -> i32;
        fn reader_open(bytes: *const u8, count: usize) -> i32;
        fn reader_routes(bytes: *const u8, count: usize) -> i32;
        fn reader_plan(bytes: *const u8, count: usize) -> i32;
    }

    pub fn check(b: &[u8]) -> i32 {
        unsafe { reader_check(b.as_ptr(), b.len()) }
    }
    pub fn open(b: &[u8]) -> i32 {
        unsafe { reader_open(b.as_ptr(), b.len()) }
    }
    pub fn routes(b: &[u8]) -> i32 {
        unsafe { reader_routes(b.as_ptr(), b.len()) }
    }
    pub fn plan(b: &[u8]) -> i32 {
        unsafe { reader_plan(b.as_ptr(), b.len()) }
    }
}

// Makes a call's answer needed.
fn keep<T>(value: T) {
    let _ = black_box(value);
}

// Numbers that are the same in every run.
struct Random(u64);

impl Random {
    fn next(&mut self) -> u64 {
        self.0 ^= self.0 << 13;
        self.0 ^= self.0 >> 7;
        self.0 ^= self.0 << 17;
        self.0
    }

    fn below(&mut self, count: usize) -> usize {
        (self.next() >> 11) as usize % count
    }
}

// Words of calls: crates/bench_lib/src/words.rt.
const LOW: u32 = 0;
const HIGH: u32 = 0x10000;
const UNMASK: u32 = 0x20000;
const MASK: u32 = 0x30000;
const COMPLETE: u32 = 0x40000;
const CLAIM: u32 = 0x50000;

// ---- equality ----

fn must(same: bool, what: &str, name: &str) {
    if !same {
        eprintln!("bench: {what} differs on {name}");
        process::exit(1);
    }
}

// All that can be asked of one byte string.
fn compare(bytes: &[u8], name: &str) {
    let open = ours::open(bytes);
    must(open == plain::open::<Scan>(bytes), "opening by scan", name);
    must(open == plain::open::<Index>(bytes), "opening by index", name);
    let nodes = ours::nodes(bytes);
    must(nodes == plain::nodes::<Scan>(bytes), "the count of nodes", name);
    let sum = ours::tree_sum(bytes);
    must(sum == plain::tree_digest::<Scan>(bytes), "the tree by scan", name);
    must(sum == plain::tree_digest::<Index>(bytes), "the tree by index", name);
    let plan = ours::plan(bytes);
    must(plan == plain::plan::<Scan>(bytes), "the plan's code by scan", name);
    must(plan == plain::plan::<Index>(bytes), "the plan's code by index", name);
    let routes = ours::routes(bytes);
    must(routes == plain::routes::<Index>(bytes), "the count of routes", name);
    let sum = ours::plan_sum(bytes);
    must(sum == plain::plan_digest::<Scan>(bytes), "the plan by scan", name);
    must(sum == plain::plan_digest::<Index>(bytes), "the plan by index", name);
}

// The same calls, so many times, on the board of a blob.
fn compare_run(bytes: &[u8], calls: &[u32], times: u32, name: &str) {
    let sum = ours::run(bytes, calls, times);
    must(sum == plain::run::<Bits>(bytes, calls, times), "a run over sets", name);
    must(sum == plain::run::<Rows>(bytes, calls, times), "a run over rows", name);
}

// Any calls, refused ones too, on the board of a blob.
fn compare_calls(bytes: &[u8], name: &str, random: &mut Random) {
    let routes = ours::routes(bytes);
    let calls: Vec<u32> = (0..2000)
        .map(|_| match random.below(6) {
            5 => CLAIM,
            kind => (kind as u32) << 16 | random.below(routes + 2) as u32,
        })
        .collect();
    for times in [0, 1, 2] {
        compare_run(bytes, &calls, times, name);
    }
    for call in &calls[..64] {
        let answer = ours::one_call(bytes, *call);
        must(answer == plain::one_call::<Index, Bits>(bytes, *call), "one call", name);
        must(answer == plain::one_call::<Scan, Rows>(bytes, *call), "one call", name);
    }
}

fn compare_all(blobs: &[(String, Vec<u8>)]) {
    let mut random = Random(0x9e3779b97f4a7c15);
    let (mut inputs, mut refused, mut boards) = (0u32, [0u32; 34], 0);
    for (name, bytes) in blobs {
        compare(bytes, name);
        inputs += 1;
        refused[ours::plan(bytes) as usize % 1000] += 1;
        if ours::plan(bytes) == 0 {
            compare_calls(bytes, name, &mut random);
            boards += 1;
        }
        if bytes.len() > 8192 {
            continue;
        }
        for turn in 0..200 {
            let mut damaged = bytes.clone();
            let at = random.below(bytes.len());
            match turn % 5 {
                // A byte of the whole; a byte of the header; a cell, made small or made another cell of the blob; cut short.
                0 => damaged[at] = random.next() as u8,
                1 => damaged[at % 40] ^= 1 << random.below(8),
                2 => damaged[(at | 3).min(bytes.len() - 1)] = random.below(12) as u8,
                3 => {
                    let from = random.below(bytes.len() - 4) & !3;
                    let to = at.min(bytes.len() - 4) & !3;
                    damaged.copy_within(from..from + 4, to);
                }
                _ => damaged.truncate(at),
            }
            compare(&damaged, &format!("{name}, damaged {turn}"));
            inputs += 1;
            refused[ours::plan(&damaged) as usize % 1000] += 1;
        }
    }
    let numbers: Vec<String> = (1..34)
        .filter(|n| refused[*n] > 0)
        .map(|n| format!("{n} ({})", refused[n]))
        .collect();
    println!("equal on {inputs} byte strings, of which {} are planned", refused[0]);
    println!("and the others refused with {}", numbers.join(", "));
    println!("equal answers to random calls on {boards} boards\n");
}

// ---- time ----

#[repr(C)]
struct Timespec {
    seconds: i64,
    nanos: i64,
}

unsafe extern "C" {
    fn clock_gettime(clock: i32, time: *mut Timespec) -> i32;
}

// What this thread has used of the processor, in seconds; so the time of others is not counted.
fn now() -> f64 {
    let mut time = Timespec {
        seconds: 0,
        nanos: 0,
    };
    // CLOCK_THREAD_CPUTIME_ID of Linux.
    let failed = unsafe { clock_gettime(3, &mut time) };
    assert!(failed == 0, "no clock");
    time.seconds as f64 + time.nanos as f64 / 1e9
}

fn time(f: &mut dyn FnMut(), times: u32) -> f64 {
    let start = now();
    for _ in 0..times {
        f();
    }
    now() - start
}

// Of each of these the least time of one call, in nanoseconds. They are measured by turns, so that what else the machine does meets all
// alike.
fn least(fs: &mut [&mut dyn FnMut()], turns: u32) -> Vec<f64> {
    let times: Vec<u32> = fs
        .iter_mut()
        .map(|f| {
            let once = time(f, 1).max(time(f, 1));
            (0.01 / once.max(1e-9)).clamp(1.0, 100_000.0) as u32
        })
        .collect();
    let mut best = vec![f64::MAX; fs.len()];
    for _ in 0..turns {
        for (i, f) in fs.iter_mut().enumerate() {
            let spent = time(f, times[i]) * 1e9 / f64::from(times[i]);
            best[i] = best[i].min(spent);
        }
    }
    best
}

fn ratio(a: f64, b: f64) -> String {
    let r = a / b;
    match r {
        r if r >= 99.5 => format!("{r:.0}"),
        r if r >= 9.95 => format!("{r:.1}"),
        _ => format!("{r:.2}"),
    }
}

fn span(nanos: f64) -> String {
    match nanos {
        n if n >= 1e9 => format!("{:.1} s", n / 1e9),
        n if n >= 1e6 => format!("{:.1} ms", n / 1e6),
        n => format!("{:.1} us", n / 1e3),
    }
}

fn find<'a>(blobs: &'a [(String, Vec<u8>)], name: &str) -> &'a [u8] {
    match blobs.iter().find(|b| b.0 == name) {
        Some(found) => &found.1,
        None => panic!("no input {name}"),
    }
}

fn trees(blobs: &[(String, Vec<u8>)], turns: u32) {
    println!("| tree | bytes | nodes | routes | step | ours / plain, scan | ours / plain, index | ours / libfdt | ours / libfdt, with phandles |");
    println!("|---|---|---|---|---|---|---|---|---|");
    for name in ["small", "middle", "full"] {
        let b = find(blobs, name);
        let nodes = ours::nodes(b);
        let routes = ours::routes(b);
        must(fdt::check(b) == nodes as i32, "libfdt's count of nodes", name);
        must(fdt::open(b) == nodes as i32, "libfdt's count of nodes", name);
        // libfdt counts the specifiers of the three controllers that are cascaded too.
        must(fdt::plan(b) == routes as i32 + 3, "libfdt's count of routes", name);
        must(fdt::plan(b) == fdt::routes(b), "libfdt's count of routes", name);
        for step in ["open", "open and plan"] {
            let best = if step == "open" {
                least(
                    &mut [
                        &mut || keep(ours::open(black_box(b))),
                        &mut || keep(plain::open::<Scan>(black_box(b))),
                        &mut || keep(plain::open::<Index>(black_box(b))),
                        &mut || keep(fdt::check(black_box(b))),
                        &mut || keep(fdt::open(black_box(b))),
                    ],
                    turns,
                )
            } else {
                least(
                    &mut [
                        &mut || keep(ours::plan(black_box(b))),
                        &mut || keep(plain::plan::<Scan>(black_box(b))),
                        &mut || keep(plain::plan::<Index>(black_box(b))),
                        &mut || keep(fdt::routes(black_box(b))),
                        &mut || keep(fdt::plan(black_box(b))),
                    ],
                    turns,
                )
            };
            println!(
                "| {name} | {} | {nodes} | {routes} | {step} | {} | {} | {} | {} |",
                b.len(),
                ratio(best[0], best[1]),
                ratio(best[0], best[2]),
                ratio(best[0], best[3]),
                ratio(best[0], best[4]),
            );
            eprintln!("{name}, {step}: ours {}, scan {}, index {}, libfdt {} and {}", span(best[0]), span(best[1]), span(best[2]), span(best[3]), span(best[4]));
        }
    }
    println!();
}

// ---- events ----

// One device at a time: high, claim, complete, low.
fn one_at_a_time(routes: usize) -> Vec<u32> {
    let mut calls: Vec<u32> = (0..routes).map(|r| UNMASK | r as u32).collect();
    let mut random = Random(77);
    for _ in 0..16 * 256 {
        let r = random.below(routes) as u32;
        calls.extend([HIGH | r, CLAIM, COMPLETE | r, LOW | r]);
    }
    calls
}

// Devices go high and low as they please, the guest claims and completes when it can, and now and then masks one.
fn many_at_once(bytes: &[u8]) -> Vec<u32> {
    let mut random = Random(99);
    let mut calls = Vec::new();
    let mut served: Vec<u32> = Vec::new();
    let mut claimed = false;
    plain::steer(bytes, |last, routes| {
        if claimed {
            claimed = false;
            if let Some(named) = last.filter(|word| *word >= 65536) {
                served.push((named - 65536) as u32);
            }
        }
        if calls.len() == 16 * 1024 {
            return None;
        }
        let r = random.below(routes) as u32;
        let call = match calls.len() {
            n if n < routes => UNMASK | n as u32,
            _ => match random.below(32) {
                0 => MASK | r,
                1 | 2 => UNMASK | r,
                3..=12 => HIGH | r,
                13..=18 => LOW | r,
                19..=25 => {
                    claimed = true;
                    CLAIM
                }
                _ => match served.pop() {
                    Some(r) => COMPLETE | r,
                    None => LOW | r,
                },
            },
        };
        calls.push(call);
        Some(call)
    });
    calls
}

fn events(blobs: &[(String, Vec<u8>)], turns: u32) {
    println!("| board | lines | routes | calls | ours / plain, rows | ours / plain, sets |");
    println!("|---|---|---|---|---|---|");
    for (name, board, lines) in [
        ("a lone 8259A", "board-lone", 8),
        ("a cascade of four: PLIC, mux, two 8259As", "board-four", 40),
        ("a cascade of four PLICs", "board-full", 256),
    ] {
        let b = find(blobs, board);
        let routes = ours::routes(b);
        for (how, calls) in [
            ("one at a time", one_at_a_time(routes)),
            ("many at once", many_at_once(b)),
        ] {
            compare_run(b, &calls, 3, name);
            // What assembly takes is taken off.
            let run = |times: u32| {
                least(
                    &mut [
                        &mut || keep(ours::run(black_box(b), black_box(&calls), times)),
                        &mut || keep(plain::run::<Rows>(black_box(b), black_box(&calls), times)),
                        &mut || keep(plain::run::<Bits>(black_box(b), black_box(&calls), times)),
                    ],
                    turns,
                )
            };
            let (none, some) = (run(0), run(8));
            let each: Vec<f64> = (0..3)
                .map(|i| (some[i] - none[i]) / (8 * calls.len()) as f64)
                .collect();
            println!(
                "| {name} | {lines} | {routes} | {how} | {} | {} |",
                ratio(each[0], each[1]),
                ratio(each[0], each[2]),
            );
            eprintln!("{name}, {how}: ours {:.1} ns, rows {:.1} ns, sets {:.1} ns; assembly: ours {}, rows {}", each[0], each[1], each[2], span(none[0]), span(none[1]));
        }
    }
    println!();
}

// ---- worst trees ----

fn seconds(f: impl Fn() -> u32) -> (f64, u32) {
    let start = now();
    let code = f();
    let first = now() - start;
    if first > 2.0 {
        return (first, code);
    }
    let mut best = first;
    for _ in 0..(0.5 / first.max(1e-9)).clamp(2.0, 200.0) as u32 {
        let start = now();
        keep(f());
        best = best.min(now() - start);
    }
    (best, code)
}

// A reader is not given a tree that would take it longer than this many seconds, by its growth before. A growth over 16, by which a
// cost grows with the fourth power, is taken for 16.
const PATIENCE: f64 = 120.0;

// About how long, in words.
fn about(seconds: f64) -> String {
    match seconds {
        s if s >= 2.0 * 86400.0 => format!("about {:.0} days", s / 86400.0),
        s if s >= 2.0 * 3600.0 => format!("about {:.0} hours", s / 3600.0),
        s if s >= 120.0 => format!("about {:.0} minutes", s / 60.0),
        s if s >= 1.0 => format!("{s:.0} seconds"),
        s if s >= 0.1 => format!("{s:.1} seconds"),
        _ => String::from("under 0.1 seconds"),
    }
}

// How long a reader took with the tree before, and how many times as long as with the one before that.
#[derive(Clone, Copy, Default)]
struct Took {
    seconds: f64,
    growth: f64,
    guessed: bool,
}

impl Took {
    fn next(self, code: &mut Option<u32>, name: &str, f: impl Fn() -> u32) -> Took {
        let guess = self.seconds * self.growth.min(16.0);
        if guess > PATIENCE || self.guessed {
            return Took {
                seconds: guess,
                growth: self.growth,
                guessed: true,
            };
        }
        let (seconds, answer) = seconds(f);
        must(code.is_none_or(|c| c == answer), "the plan's code", name);
        *code = Some(answer);
        Took {
            seconds,
            growth: if self.seconds == 0.0 { 0.0 } else { seconds / self.seconds },
            guessed: false,
        }
    }

    fn grown(self) -> String {
        match self.guessed || self.growth == 0.0 {
            true => String::new(),
            false => ratio(self.growth, 1.0),
        }
    }

    fn over(self, other: Took) -> String {
        match self.guessed || other.guessed {
            true => String::new(),
            false => ratio(self.seconds, other.seconds),
        }
    }
}

fn worst(blobs: &[(String, Vec<u8>)]) {
    println!("| tree | KiB | answer | ours | growth | ours / plain, scan | its growth | ours / plain, index | its growth |");
    println!("|---|---|---|---|---|---|---|---|---|");
    let mut before = ("", [Took::default(); 3]);
    for (name, bytes) in blobs.iter().filter(|b| b.0.starts_with("worst-")) {
        let (family, size) = name["worst-".len()..].rsplit_once('-').unwrap();
        let then = if before.0 == family { before.1 } else { [Took::default(); 3] };
        let mut code = None;
        let index = then[2].next(&mut code, name, || plain::plan::<Index>(black_box(bytes)));
        let scan = then[1].next(&mut code, name, || plain::plan::<Scan>(black_box(bytes)));
        let ours = then[0].next(&mut code, name, || ours::plan(black_box(bytes)));
        let answer = match code {
            None => String::from("not run"),
            Some(0) => String::from("planned"),
            Some(code) => format!("refused, {}", code % 1000),
        };
        println!(
            "| {family} | {} | {answer} | {}{} | {} | {} | {} | {} | {} |",
            size.trim_start_matches('0'),
            if ours.guessed { "not run: " } else { "" },
            about(ours.seconds),
            ours.grown(),
            ours.over(scan),
            scan.grown(),
            ours.over(index),
            index.grown(),
        );
        let [o, s, i] = [ours, scan, index].map(|t| span(t.seconds * 1e9));
        eprintln!("{name}: ours {o}, scan {s}, index {i}");
        before = (family, [ours, scan, index]);
    }
    println!();
}

// ---- stack ----

const ROOM: usize = 4 << 20;
const PAINT: u64 = 0x5a5a_a5a5_c3c3_3c3c;

// Paints the stack below, and answers where the paint begins and ends.
#[inline(never)]
fn paint() -> (usize, usize) {
    let here = 0u64;
    let end = (&raw const here as usize - 192) & !7;
    let start = end - ROOM / 2;
    for at in (start..end).step_by(8) {
        unsafe { (at as *mut u64).write_volatile(PAINT) };
    }
    (start, end)
}

#[inline(never)]
fn deepest(f: &dyn Fn()) -> usize {
    let (start, end) = paint();
    let here = 0u64;
    f();
    let top = &raw const here as usize;
    let touched = (start..end)
        .step_by(8)
        .find(|at| unsafe { (*at as *const u64).read_volatile() } != PAINT);
    top - touched.unwrap_or(end)
}

// How far down the stack a call goes, in a thread of its own.
fn stack(f: impl Fn() + Send + Sync + 'static) -> usize {
    thread::Builder::new()
        .stack_size(ROOM)
        .spawn(move || deepest(&f))
        .unwrap()
        .join()
        .unwrap()
}

type Asked = fn(&[u8]);

fn stacks(blobs: &[(String, Vec<u8>)]) {
    let calls: [(&str, Asked, Asked, Asked, Asked); 3] = [
        (
            "open",
            |b| keep(ours::open(b)),
            |b| keep(plain::open::<Scan>(b)),
            |b| keep(plain::open::<Index>(b)),
            |b| keep(fdt::open(b)),
        ),
        (
            "open and plan",
            |b| keep(ours::plan(b)),
            |b| keep(plain::plan::<Scan>(b)),
            |b| keep(plain::plan::<Index>(b)),
            |b| keep(fdt::plan(b)),
        ),
        (
            "open, plan, assemble and claim",
            |b| keep(ours::one_call(b, CLAIM)),
            |b| keep(plain::one_call::<Scan, Rows>(b, CLAIM)),
            |b| keep(plain::one_call::<Index, Bits>(b, CLAIM)),
            |_| {},
        ),
    ];
    println!("| call | ours | plain, scan and rows | plain, index and sets | libfdt |");
    println!("|---|---|---|---|---|");
    for (what, ours, scan, index, fdt) in calls {
        let most = |f: Asked| {
            blobs
                .iter()
                .filter(|b| !b.0.starts_with("worst-"))
                .map(|(_, bytes)| {
                    let bytes = bytes.clone();
                    stack(move || f(&bytes))
                })
                .max()
                .unwrap_or(0)
        };
        println!("| {what} | {} | {} | {} | {} |", most(ours), most(scan), most(index), most(fdt));
    }
    println!();
    println!("| value | ours | plain, scan and rows | plain, index and sets |");
    println!("|---|---|---|---|");
    println!(
        "| a board | {} | {} | {} |",
        ours::board_size(),
        size_of::<plain::Board<Rows>>(),
        size_of::<plain::Board<Bits>>()
    );
    let plan = size_of::<plain::Plan<'static>>();
    println!("| a plan | {} | {plan} | {plan} |\n", ours::plan_size());
}

// ---- all ----

fn blobs_in(folder: &Path) -> Vec<(String, Vec<u8>)> {
    let mut files: Vec<PathBuf> = fs::read_dir(folder)
        .unwrap_or_else(|error| panic!("{}: {error}", folder.display()))
        .map(|entry| entry.unwrap().path())
        .filter(|path| path.extension().is_some_and(|e| e == "dtb"))
        .collect();
    files.sort();
    files
        .into_iter()
        .map(|path| {
            let name = path.file_stem().unwrap().to_string_lossy().into_owned();
            (name, fs::read(path).unwrap())
        })
        .collect()
}

// bench DATA INPUTS [WORD..]: the blobs to compare on, the inputs to measure, and which parts to run; without words all.
fn main() {
    let args: Vec<String> = env::args().collect();
    let (data, inputs) = (blobs_in(Path::new(&args[1])), blobs_in(Path::new(&args[2])));
    let has = |word: &str| args.len() == 3 || args[3..].iter().any(|a| a == word);
    let turns = 15;
    let mut all = data;
    all.extend(inputs.iter().filter(|b| !b.0.starts_with("worst-")).cloned());
    all.extend(inputs.iter().filter(|b| b.0.starts_with("worst-") && b.1.len() < 3000).cloned());
    compare_all(&all);
    if has("trees") {
        trees(&inputs, turns);
    }
    if has("events") {
        events(&inputs, turns);
    }
    if has("stack") {
        stacks(&all);
    }
    if has("worst") {
        worst(&inputs);
    }
}
