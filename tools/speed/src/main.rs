//! The benchmark's program: runs every row over one text with the panel's entries and with the Rust.
//!
//! usage: bench TEXT ROUNDS TIMES [hostile]
//!
//! First both sides' results are compared, number by number; a difference ends the program with status 1. Then each side runs
//! ROUNDS times, in turns, and each of these is TIMES runs. A row is a line: its name, how many numbers were compared, and the
//! nanoseconds of processor time of one run of ours and of the Rust, the smallest of the rounds. For a hostile text, on which the Rust may
//! take seconds, the rows are fewer.

mod house;
mod panel;
mod rows;

use rows::{Build, Cursor, Fences, Frames, Markers, Numbered, Row, Sink};
use std::hint::black_box;
use std::time::Duration;

#[repr(C)]
#[derive(Default)]
struct Time {
    seconds: i64,
    nanoseconds: i64,
}

/// Linux's number for the processor time of this process. Unlike the time of day it stands still while others run.
const PROCESSOR_TIME: i32 = 2;

extern "C" {
    fn getppid() -> i32;
    fn clock_gettime(clock: i32, time: *mut Time) -> i32;
}

/// Where a part begins or ends: the time, and the call at which tools/speed/count.c writes its count.
fn mark() -> Duration {
    let mut time = Time::default();
    unsafe {
        getppid();
        clock_gettime(PROCESSOR_TIME, &mut time);
    }
    Duration::new(time.seconds as u64, time.nanoseconds as u32)
}

/// Keeps what is found alive, and does nothing else.
struct Measured;

impl Sink for Measured {
    #[inline(always)]
    fn item(&mut self, numbers: &[u32]) {
        black_box(numbers);
    }

    #[inline(always)]
    fn list<T, const N: usize>(&mut self, list: &[T], _: impl Fn(&T) -> [u32; N]) {
        black_box(list);
    }
}

struct Gathered(Vec<u32>);

impl Sink for Gathered {
    fn item(&mut self, numbers: &[u32]) {
        self.0.extend(numbers);
    }

    fn list<T, const N: usize>(&mut self, list: &[T], numbers: impl Fn(&T) -> [u32; N]) {
        self.0.extend(list.iter().flat_map(numbers));
    }
}

struct Bench {
    text: Vec<u8>,
    rounds: u32,
    times: u32,
    /// A text on which the Rust may take seconds: it runs in the first round alone.
    hostile: bool,
}

impl Bench {
    fn row(&self, name: &str, mut row: impl Row) {
        let compared = self.compared(name, &mut row);
        let (mut ours, mut theirs) = (Duration::MAX, Duration::MAX);
        for round in 0..self.rounds {
            let began = mark();
            for _ in 0..self.times {
                row.ours(black_box(&self.text), &mut Measured);
            }
            let between = mark();
            ours = ours.min(between - began);
            if self.hostile && round > 0 {
                continue;
            }
            for _ in 0..self.times {
                row.theirs(black_box(&self.text), &mut Measured);
            }
            let ended = mark();
            theirs = theirs.min(ended - between);
        }
        let of_one = |all: Duration| all.as_nanos() as f64 / f64::from(self.times);
        println!("{name}\t{compared}\t{:.0}\t{:.0}", of_one(ours), of_one(theirs));
    }

    /// How many numbers both sides gave; they must be the same.
    fn compared(&self, name: &str, row: &mut impl Row) -> usize {
        let (mut ours, mut theirs) = (Gathered(Vec::new()), Gathered(Vec::new()));
        row.ours(&self.text, &mut ours);
        row.theirs(&self.text, &mut theirs);
        if ours.0 != theirs.0 {
            let same = ours.0.iter().zip(&theirs.0).take_while(|(a, b)| a == b).count();
            let of = |numbers: &[u32]| format!("{} numbers, there {:?}", numbers.len(), numbers.get(same));
            eprintln!("{name}: the results differ from number {same} on; ours: {}; the Rust's: {}", of(&ours.0), of(&theirs.0));
            std::process::exit(1);
        }
        ours.0.len()
    }
}

fn main() {
    let words: Vec<String> = std::env::args().collect();
    let [_, path, rounds, times, rest @ ..] = words.as_slice() else {
        panic!("usage: bench TEXT ROUNDS TIMES [hostile]");
    };
    let text = std::fs::read(path).expect("the text can be read");
    let number = |word: &String| word.parse().expect("a number");
    let bench = Bench { text, rounds: number(rounds), times: number(times), hostile: !rest.is_empty() };
    let text = &bench.text;
    // What two marks count by themselves.
    mark();
    mark();
    bench.row("fences", Fences);
    bench.row("markers", Markers);
    bench.row("numbered", Numbered);
    bench.row("frames", Frames);
    bench.row("build, room enough", Build::with_room_enough(text));
    if !bench.hostile {
        bench.row("build, counted", Build::counted(text));
        bench.row("cursor, every place", Cursor::new(text, 1));
        bench.row("cursor, every 64th", Cursor::new(text, 64));
    }
    bench.row("sheet", rows::Sheet::new(text));
}
