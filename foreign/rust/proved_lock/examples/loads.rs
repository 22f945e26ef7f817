// SPDX-License-Identifier: MIT OR Apache-2.0
//! Contended locks and condition variables beside `parking_lot` and std. Of several threads it prints the acquisitions or items
//! a millisecond, the switches, the share of the least served thread, and the processor time of an acquisition or item. Stop
//! all else on the machine first.
//!
//! `cargo run --release --example loads [TURNS]`
use std::collections::VecDeque;
use std::hint::black_box;
use std::process::Command;
use std::sync::Barrier;
use std::sync::atomic::{AtomicBool, Ordering::Relaxed};
use std::time::{Duration, Instant};

const TURN: Duration = Duration::from_millis(100);
/// How many items a bounded queue has at most, as the lines of queues say.
const ROOM: usize = 16;

/// What the threads of a turn did: rounds and switches a millisecond, the least rounds of a thread as a share of the mean, and
/// the microseconds of processor time of a round.
#[derive(Clone, Copy)]
struct Seen {
    rate: f64,
    switches: f64,
    least: f64,
    micros: f64,
}

/// A thread of a turn: its number, its random numbers, and whether the turn has ended.
struct Thread<'a> {
    number: usize,
    random: u64,
    ended: &'a AtomicBool,
}

/// A round of a thread at a lock.
type Round<'a> = &'a (dyn Fn(&mut Thread<'_>) + Sync);

/// A lock of a row: its round, and what wakes the threads that sleep when a turn ends.
type Entry<'a> = (Round<'a>, &'a dyn Fn());

/// What the C library answers of a process: seconds and microseconds in user and in system mode, and 14 numbers more.
#[repr(C)]
struct Usage {
    user: [i64; 2],
    system: [i64; 2],
    others: [i64; 14],
}

extern "C" {
    fn getrusage(who: i32, usage: &mut Usage) -> i32;
}

/// Returns the microseconds of processor time of all threads of this process so far.
fn processor_micros() -> f64 {
    let mut usage = Usage { user: [0; 2], system: [0; 2], others: [0; 14] };
    // SAFETY: 0 is this process, and the struct has the layout of the C library on 64-bit Linux.
    assert_eq!(unsafe { getrusage(0, &mut usage) }, 0);
    let seconds = usage.user[0] + usage.system[0];
    (seconds * 1_000_000 + usage.user[1] + usage.system[1]) as f64
}

/// Returns how often this thread was switched so far, voluntarily or not.
fn switches() -> u64 {
    let status = std::fs::read_to_string("/proc/thread-self/status").expect("Linux");
    let count = |line: &str| line.rsplit('\t').next().and_then(|it| it.parse::<u64>().ok());
    status.lines().filter(|line| line.contains("ctxt_switches")).filter_map(count).sum()
}

/// Lets so many threads make rounds for the time of a turn.
fn turn(threads: usize, (round, wake): Entry<'_>) -> Seen {
    let (start, ended) = (Barrier::new(threads + 1), AtomicBool::new(false));
    let used = processor_micros();
    let rounds_of = |number: usize| {
        let mut thread = Thread { number, random: number as u64 * 7919 + 1, ended: &ended };
        start.wait();
        let (before, mut made) = (switches(), 0u64);
        while !ended.load(Relaxed) {
            round(&mut thread);
            made += 1;
        }
        (made, switches() - before)
    };
    let rounds_of = &rounds_of;
    std::thread::scope(|s| {
        let running: Vec<_> = (0..threads).map(|thread| s.spawn(move || rounds_of(thread))).collect();
        start.wait();
        let begun = Instant::now();
        std::thread::sleep(TURN);
        ended.store(true, Relaxed);
        wake();
        let counts: Vec<_> = running.into_iter().map(|it| it.join().expect("no panic")).collect();
        let millis = begun.elapsed().as_secs_f64() * 1e3;
        let made: u64 = counts.iter().map(|it| it.0).sum();
        let least = counts.iter().map(|it| it.0).min().unwrap_or(0);
        Seen {
            rate: made as f64 / millis,
            switches: counts.iter().map(|it| it.1).sum::<u64>() as f64 / millis,
            least: least as f64 * threads as f64 / made as f64,
            micros: (processor_micros() - used) / made as f64,
        }
    })
}

fn median(figures: impl Iterator<Item = f64>) -> f64 {
    let mut figures: Vec<_> = figures.collect();
    figures.sort_by(f64::total_cmp);
    figures[figures.len() / 2]
}

/// The table: how many turns a figure has, and of each row `proved_lock`'s rate as a share of the better one of the others.
struct Table {
    turns: usize,
    shares: Vec<(f64, String)>,
}

impl Table {
    /// Prints a line: the medians of each lock, whose turns alternate. So many rounds are one acquisition or item.
    fn row(&mut self, what: &str, threads: usize, rounds: f64, entries: &[Entry<'_>; 3]) {
        let mut seen = [const { Vec::new() }; 3];
        for _ in 0..self.turns {
            for (seen, entry) in seen.iter_mut().zip(entries) {
                seen.push(turn(threads, *entry));
            }
        }
        let of = |it: &[Seen], figure: fn(&Seen) -> f64| median(it.iter().map(figure));
        let [mine, other, std] = [0, 1, 2].map(|it| of(&seen[it], |it| it.rate) / rounds);
        self.shares.push((mine / other.max(std), what.to_owned()));
        let cells = [(mine, &seen[0]), (other, &seen[1]), (std, &seen[2])].map(|(rate, it)| {
            let micros = of(it, |it| it.micros) * rounds;
            format!("{rate:.0}, {:.1}, {:.2}, {micros:.3}", of(it, |it| it.switches), of(it, |it| it.least))
        });
        print_line(what, &cells);
    }

    /// Prints the lines of locks for 2, 4 and 8 threads.
    fn rows(&mut self, what: &str, rounds: [Round<'_>; 3]) {
        let entries = rounds.map(|round| -> Entry<'_> { (round, &|| ()) });
        [2, 4, 8].into_iter().for_each(|threads| self.row(&format!("{what}, {threads} threads"), threads, 1.0, &entries));
    }

    /// Prints in how many rows `proved_lock` is about as fast as the others, and the rows in which it is slowest.
    fn print_shares(mut self) {
        self.shares.sort_by(|one, other| one.0.total_cmp(&other.0));
        let near = self.shares.iter().filter(|it| it.0 >= 0.95).count();
        println!("proved_lock's rate is at least 0.95 of the better other one in {near} of {} rows; least:", self.shares.len());
        self.shares.iter().take(4).for_each(|(share, what)| println!("{share:.2} {what}"));
    }
}

fn print_line(what: &str, cells: &[String; 3]) {
    println!("{what:<43}  {:<25}  {:<25}  {}", cells[0], cells[1], cells[2]);
}

fn spin(rounds: u64) {
    (0..rounds).for_each(|i| {
        black_box(i);
    });
}

/// Returns how many rounds of `spin` take ten microseconds.
fn ten_microseconds() -> u64 {
    let nanos = |_| {
        let begun = Instant::now();
        spin(20_000);
        begun.elapsed().as_nanos() as u64
    };
    20_000 * 10_000 / (0..50).map(nanos).min().unwrap_or(1)
}

/// Returns true once in `of` times, by the next random number.
fn once_in(of: u64, random: &mut u64) -> bool {
    *random ^= *random << 13;
    *random ^= *random >> 7;
    *random ^= *random << 17;
    (*random >> 20) % of == 0
}

fn mutexes(table: &mut Table, what: &str, inside: u64, outside: u64) {
    let (std, other, mine) = (std::sync::Mutex::new(0), parking_lot::Mutex::new(0), proved_lock::Mutex::new(0));
    let work = |value: &mut u64| {
        *value += 1;
        spin(inside);
    };
    let rounds: [Round<'_>; 3] = [
        &|_| {
            work(&mut mine.lock());
            spin(outside);
        },
        &|_| {
            work(&mut other.lock());
            spin(outside);
        },
        &|_| {
            work(&mut std.lock().expect("no panic"));
            spin(outside);
        },
    ];
    table.rows(what, rounds);
}

fn rwlocks(table: &mut Table, what: &str, inside: u64, of: u64) {
    let (std, other, mine) = (std::sync::RwLock::new(()), parking_lot::RwLock::new(()), proved_lock::RwLock::new(()));
    let rounds: [Round<'_>; 3] = [
        &|thread| {
            if once_in(of, &mut thread.random) {
                let _held = mine.write();
                spin(inside);
            } else {
                let _held = mine.read();
                spin(inside);
            }
        },
        &|thread| {
            if once_in(of, &mut thread.random) {
                let _held = other.write();
                spin(inside);
            } else {
                let _held = other.read();
                spin(inside);
            }
        },
        &|thread| {
            if once_in(of, &mut thread.random) {
                let _held = std.write().expect("no panic");
                spin(inside);
            } else {
                let _held = std.read().expect("no panic");
                spin(inside);
            }
        },
    ];
    table.rows(what, rounds);
}

/// Declares a bounded queue over a mutex and two condition variables of a crate.
macro_rules! queue {
    ($name:ident, $($locks:ident)::+, $mutex:ident => $lock:expr, ($condvar:ident, $items:ident) => $wait:expr) => {
        #[derive(Default)]
        struct $name {
            items: $($locks)::+::Mutex<VecDeque<u64>>,
            filled: $($locks)::+::Condvar,
            freed: $($locks)::+::Condvar,
        }

        impl $name {
            /// Puts an item into the queue if the thread's number is even, and otherwise takes one.
            fn round(&self, thread: &Thread<'_>) {
                let puts = thread.number % 2 == 0;
                let ($condvar, other, bound) = if puts { (&self.freed, &self.filled, ROOM) } else { (&self.filled, &self.freed, 0) };
                let $mutex = &self.items;
                let mut $items = $lock;
                while $items.len() == bound {
                    if thread.ended.load(Relaxed) {
                        return;
                    }
                    $items = $wait;
                }
                if puts {
                    $items.push_back(black_box(1));
                } else {
                    black_box($items.pop_front());
                }
                drop($items);
                other.notify_one();
            }

            /// Wakes all threads. Whoever sleeps after this has seen that the turn has ended.
            fn wake(&self) {
                let $mutex = &self.items;
                drop($lock);
                self.filled.notify_all();
                self.freed.notify_all();
            }
        }
    };
}

queue!(Mine, proved_lock, mutex => mutex.lock(), (condvar, items) => {
    condvar.wait(&mut items);
    items
});
queue!(Other, parking_lot, mutex => mutex.lock(), (condvar, items) => {
    condvar.wait(&mut items);
    items
});
queue!(Std, std::sync, mutex => mutex.lock().expect("no panic"), (condvar, items) => condvar.wait(items).expect("no panic"));

/// Prints the lines of a queue. Its threads work for so long after each item.
fn queues(table: &mut Table, what: &str, outside: u64) {
    let (std, other, mine) = (Std::default(), Other::default(), Mine::default());
    let entries: [Entry<'_>; 3] = [
        (
            &|thread| {
                mine.round(thread);
                spin(outside);
            },
            &|| mine.wake(),
        ),
        (
            &|thread| {
                other.round(thread);
                spin(outside);
            },
            &|| other.wake(),
        ),
        (
            &|thread| {
                std.round(thread);
                spin(outside);
            },
            &|| std.wake(),
        ),
    ];
    for each in [1, 2, 4] {
        table.row(&format!("{what}, {each} + {each} threads"), 2 * each, 2.0, &entries);
    }
}

/// Returns the version of a crate in `Cargo.lock`.
fn version_of(name: &str) -> String {
    let lock = std::fs::read_to_string(concat!(env!("CARGO_MANIFEST_DIR"), "/Cargo.lock")).unwrap_or_default();
    let from = lock.split("[[package]]").find(|it| it.contains(&format!("name = \"{name}\"\n")));
    from.and_then(|it| it.split("version = \"").nth(1)?.split('"').next().map(str::to_owned)).unwrap_or("unknown".into())
}

/// Returns what `rustc --version` prints.
fn rustc() -> String {
    let said = Command::new("rustc").arg("--version").output().map(|it| it.stdout).unwrap_or_default();
    String::from_utf8_lossy(&said).trim().to_owned()
}

fn main() {
    let turns = std::env::args().nth(1).and_then(|it| it.parse().ok()).unwrap_or(9);
    let ten = ten_microseconds();
    println!("proved_lock {}, parking_lot {}, std of {}", env!("CARGO_PKG_VERSION"), version_of("parking_lot"), rustc());
    println!("acquisitions or items a millisecond, switches a millisecond, the least share, and microseconds of processor time");
    println!("of an acquisition or item; medians of {turns} turns");
    print_line("A load", &["proved_lock", "parking_lot", "std"].map(str::to_owned));
    let mut table = Table { turns, shares: Vec::new() };
    mutexes(&mut table, "mutex, short sections", 0, 0);
    mutexes(&mut table, "mutex, 1 µs, and as long outside", ten / 10, ten / 10);
    mutexes(&mut table, "mutex, 10 µs", ten, 0);
    mutexes(&mut table, "mutex, 10 µs, and as long outside", ten, ten);
    rwlocks(&mut table, "one write in ten, short sections", 0, 10);
    rwlocks(&mut table, "one write in ten, 10 µs", ten, 10);
    rwlocks(&mut table, "one write in two, 10 µs", ten, 2);
    queues(&mut table, "a queue of 16 items", 0);
    queues(&mut table, "a queue, 0.1 µs of work an item", ten / 100);
    table.print_shares();
}
