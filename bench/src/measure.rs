//! Times the contenders of a workload side by side: each round times each of them once, so that a
//! slow moment of the machine falls on all, and the ratio within a round is what counts.

use crate::port::Port;
use crate::results::{Results, Role, Timed, Unit};
use std::hint::black_box;
use std::time::{Duration, Instant};

/// How long a contender runs untimed, at least, before each timed run.
const WARM_UP: Duration = Duration::from_millis(20);

/// Whose time counts.
#[derive(Clone, Copy, PartialEq)]
enum Clock {
    /// The processor time of this thread, in which other processes have no part.
    Thread,
    /// The clock on the wall, which each contender reads itself: it answers its nanoseconds.
    Wall,
}

struct Contender<'a> {
    name: String,
    role: Role,
    /// Whether it has to answer what the first contender answers.
    agrees: bool,
    /// How often its work has to be done to make the workload's.
    times: f64,
    run: Box<dyn FnMut() -> u64 + 'a>,
}

impl Contender<'_> {
    fn timed(&self, seconds: Vec<f64>) -> Timed {
        Timed {
            name: self.name.clone(),
            role: self.role,
            seconds,
        }
    }
}

pub struct Workload<'a> {
    pub id: &'static str,
    name: &'static str,
    details: &'static str,
    unit: Unit,
    clock: Clock,
    contenders: Vec<Contender<'a>>,
}

impl<'a> Workload<'a> {
    /// One that is named in a few words; the details say the rest.
    pub fn new(
        id: &'static str,
        name: &'static str,
        details: &'static str,
        unit: Unit,
    ) -> Workload<'a> {
        Workload {
            id,
            name,
            details,
            unit,
            clock: Clock::Thread,
            contenders: Vec::new(),
        }
    }

    /// One whose contenders have threads of their own, and so answer the nanoseconds that they
    /// took.
    pub fn on_the_wall(
        id: &'static str,
        name: &'static str,
        details: &'static str,
        unit: Unit,
    ) -> Workload<'a> {
        Workload {
            clock: Clock::Wall,
            ..Workload::new(id, name, details, unit)
        }
    }

    /// Adds a contender that does the same work and gives the same answer. The first one is what
    /// the others are compared with.
    pub fn with(self, name: &str, run: impl FnMut() -> u64 + 'a) -> Workload<'a> {
        self.push(name, true, 1.0, run)
    }

    /// Adds one for scale, whose answer is another.
    pub fn beside(self, name: &str, run: impl FnMut() -> u64 + 'a) -> Workload<'a> {
        self.push(name, false, 1.0, run)
    }

    /// Adds one that gives the same answer by other work, which done so many times is the
    /// workload's.
    pub fn part(self, name: &str, times: f64, run: impl FnMut() -> u64 + 'a) -> Workload<'a> {
        self.push(name, true, times, run)
    }

    /// Adds a contender for each build of the port.
    pub fn with_ports<R: FnMut() -> u64 + 'a>(
        mut self,
        ports: &'a [Port],
        work: impl Fn(&'a Port) -> R,
    ) -> Workload<'a> {
        for port in ports {
            self = self.with(port.name, work(port)).listed_as(Role::Port);
        }
        self
    }

    /// Says what the contender that was added last is in the table of the results. The first one
    /// is a divisor without being listed.
    pub fn listed_as(mut self, role: Role) -> Workload<'a> {
        let last = self.contenders.last_mut();
        last.expect("a contender was added").role = role;
        self
    }

    fn push(
        mut self,
        name: &str,
        agrees: bool,
        times: f64,
        run: impl FnMut() -> u64 + 'a,
    ) -> Workload<'a> {
        let run = Box::new(run);
        let role = match self.contenders.len() {
            0 => Role::Divisor,
            _ => Role::Unlisted,
        };
        self.contenders.push(Contender {
            name: name.into(),
            role,
            agrees,
            times,
            run,
        });
        self
    }

    /// Times each contender once in each round.
    pub fn measure(&mut self, rounds: usize) -> Results {
        self.compare_answers();
        let count = self.contenders.len();
        let mut times = vec![Vec::with_capacity(rounds); count];
        for turn in 0..rounds * count {
            // Each round starts at another contender.
            let at = (turn + turn / count) % count;
            self.warm_up(at);
            times[at].push(self.time(at));
        }
        let contenders = self.contenders.iter().zip(times);
        self.results(contenders.map(|(it, seconds)| it.timed(seconds)).collect())
    }

    /// Runs a contender untimed, at least once, so that the timed run finds the heap and the caches
    /// as its own runs leave them.
    fn warm_up(&mut self, at: usize) {
        let start = Instant::now();
        loop {
            self.time(at);
            if start.elapsed() >= WARM_UP {
                return;
            }
        }
    }

    /// Runs each contender once, to see that it does the work.
    fn compare_answers(&mut self) {
        let mut wanted = None;
        for it in &mut self.contenders {
            let got = (it.run)();
            let wanted = *wanted.get_or_insert(got);
            if self.clock == Clock::Thread && it.agrees {
                assert_eq!(got, wanted, "{}: the answer of {}", self.id, it.name);
            }
        }
    }

    /// The seconds that the contender takes for the workload's work.
    fn time(&mut self, at: usize) -> f64 {
        let contender = &mut self.contenders[at];
        let start = thread_seconds();
        let answer = black_box((contender.run)());
        let took = match self.clock {
            Clock::Thread => thread_seconds() - start,
            Clock::Wall => answer as f64 * 1e-9,
        };
        took * contender.times
    }

    fn results(&self, contenders: Vec<Timed>) -> Results {
        Results {
            id: self.id,
            name: self.name,
            details: self.details,
            unit: self.unit,
            contenders,
        }
    }

    /// The results, if each contender's seconds are known, by its name.
    pub fn results_by(&self, seconds: impl Fn(&str) -> Option<Vec<f64>>) -> Option<Results> {
        let contenders = self.contenders.iter();
        let timed = contenders.map(|it| Some(it.timed(seconds(&it.name)?)));
        Some(self.results(timed.collect::<Option<_>>()?))
    }

    /// Runs the contender of this name so many times, and prints what the process had in memory at
    /// most.
    pub fn run_alone(&mut self, name: &str, times: usize) {
        let Some(contender) = self.contenders.iter_mut().find(|it| it.name == name) else {
            eprintln!("{}: no contender is called {name}", self.id);
            return;
        };
        forget_peak();
        let before = peak();
        for _ in 0..times {
            black_box((contender.run)());
        }
        println!(
            "{} {name}: {} KiB in memory at most, {before} before",
            self.id,
            peak()
        );
    }
}

/// The most that this process had in memory, in KiB.
fn peak() -> u64 {
    let status = std::fs::read_to_string("/proc/self/status").unwrap_or_default();
    let line = status.lines().find(|it| it.starts_with("VmHWM:"));
    line.and_then(|it| it.split_whitespace().nth(1)?.parse().ok())
        .unwrap_or(0)
}

/// Forgets what was in memory at most before. Where the system refuses that, `peak` only tells
/// more.
fn forget_peak() {
    let _ = std::fs::write("/proc/self/clear_refs", "5");
}

/// The nanoseconds that the work takes by the clock on the wall.
pub fn wall_nanoseconds(work: impl FnOnce() -> u64) -> u64 {
    let start = Instant::now();
    black_box(work());
    start.elapsed().as_nanos() as u64
}

/// The processor time of this thread.
fn thread_seconds() -> f64 {
    #[repr(C)]
    struct Time {
        seconds: i64,
        nanoseconds: i64,
    }
    unsafe extern "C" {
        fn clock_gettime(clock: i32, time: *mut Time) -> i32;
    }
    const CLOCK_THREAD_CPUTIME_ID: i32 = 3;
    let mut time = Time {
        seconds: 0,
        nanoseconds: 0,
    };
    // SAFETY: the struct is that of 64-bit Linux, and is borrowed for the call.
    let status = unsafe { clock_gettime(CLOCK_THREAD_CPUTIME_ID, &mut time) };
    assert_eq!(status, 0, "the clock of a thread");
    time.seconds as f64 + time.nanoseconds as f64 * 1e-9
}
