//! Measures tendril 0.5.1, its alternatives and the port side by side.

mod inputs;
mod measure;
mod picture;
mod places;
mod port;
mod report;
mod results;
mod workloads;

use inputs::Inputs;
use measure::Workload;
use report::{Page, Run};
use std::error::Error;
use std::ffi::c_int;
use std::path::PathBuf;
use std::process::ExitCode;

const USAGE: &str =
    "usage: tendril_driver [--rounds N] [--size BYTES] [--page FILE | --times | --alone NAME] [WORD..]
  --rounds  how often each contender runs (15)
  --size    how long the large inputs are (4194304)
  --page    runs all workloads in each of the programs of target/places, and writes the results
            between the marks of this page and the picture speed.svg beside it
  --times   prints only the seconds of each contender, as --page reads them
  --alone   runs the contender of this name only, and says what the process had in memory at most
  WORD      an id of a workload, or what the ids of several begin with; none: all run";

struct Options {
    rounds: usize,
    size: usize,
    page: Option<PathBuf>,
    times: bool,
    alone: Option<String>,
    words: Vec<String>,
}

impl Options {
    fn parse(mut arguments: impl Iterator<Item = String>) -> Option<Options> {
        let mut options = Options {
            rounds: 15,
            size: 4 << 20,
            page: None,
            times: false,
            alone: None,
            words: Vec::new(),
        };
        while let Some(word) = arguments.next() {
            match word.as_str() {
                "--rounds" => {
                    options.rounds = arguments.next()?.parse().ok().filter(|it| *it > 0)?
                }
                "--size" => options.size = arguments.next()?.parse().ok()?,
                "--page" => options.page = Some(arguments.next()?.into()),
                "--times" => options.times = true,
                "--alone" => options.alone = Some(arguments.next()?),
                flag if flag.starts_with('-') => return None,
                _ => options.words.push(word),
            }
        }
        options.is_whole().then_some(options)
    }

    /// Whether a page gets all rows, if one is written.
    fn is_whole(&self) -> bool {
        self.page.is_none() || self.words.is_empty() && self.alone.is_none() && !self.times
    }

    /// The workloads that the words ask for: a word that is an id means that one alone.
    fn choose<'a>(&self, all: Vec<Workload<'a>>) -> Vec<Workload<'a>> {
        let ids: Vec<&str> = all.iter().map(|it| it.id).collect();
        let asks = |word: &String, id: &str| {
            if ids.contains(&word.as_str()) {
                word == id
            } else {
                id.starts_with(word.as_str())
            }
        };
        let wanted = |id: &str| self.words.is_empty() || self.words.iter().any(|it| asks(it, id));
        all.into_iter().filter(|it| wanted(it.id)).collect()
    }
}

fn main() -> ExitCode {
    let Some(options) = Options::parse(std::env::args().skip(1)) else {
        eprintln!("{USAGE}");
        return ExitCode::from(2);
    };
    match run(&options) {
        Ok(()) => ExitCode::SUCCESS,
        Err(error) => {
            eprintln!("tendril_driver: {error}");
            ExitCode::FAILURE
        }
    }
}

fn run(options: &Options) -> Result<(), Box<dyn Error>> {
    places::keep();
    let page = options.page.as_deref().map(Page::open).transpose()?;
    let inputs = Inputs::new(options.size);
    let ports = port::builds();
    if page.is_some() && ports.is_empty() {
        return Err("a page is about the port: build with the feature `port`".into());
    }
    let chosen = options.choose(workloads::all(&inputs, &ports));
    if chosen.is_empty() {
        return Err("no workload has such an id".into());
    }
    if let Some(page) = page {
        return write(&page, &chosen, options);
    }
    if let Some(contender) = &options.alone {
        for mut workload in chosen {
            workload.run_alone(contender, options.rounds);
        }
        return Ok(());
    }
    keep_memory();
    if !options.times {
        println!("{}", Run::new(options.rounds, 1, options.size));
    }
    for mut workload in chosen {
        let results = workload.measure(options.rounds);
        if options.times {
            print!("{}", places::as_lines(&results));
        } else {
            print!("{results}");
        }
    }
    Ok(())
}

/// Measures the workloads in each of the programs, and writes the results into the page.
fn write(page: &Page, chosen: &[Workload], options: &Options) -> Result<(), Box<dyn Error>> {
    let programs = places::programs()?;
    let rounds = places::whole_rounds(options.rounds, programs.len());
    let run = Run::new(rounds, programs.len(), options.size);
    println!("{run}");
    let results = places::measure(chosen, &programs, rounds, options.size)?;
    for it in &results {
        print!("{it}");
    }
    page.write(&run, &results)?;
    Ok(())
}

unsafe extern "C" {
    fn mallopt(parameter: c_int, value: c_int) -> c_int;
}

/// Has glibc's malloc keep what is freed, whatever its size.
fn keep_memory() {
    const TRIM_THRESHOLD: c_int = -1;
    const MMAP_MAX: c_int = -4;
    // SAFETY: the allocator may be told at any time, and this process has one thread yet.
    let is_set = unsafe { mallopt(TRIM_THRESHOLD, -1) == 1 && mallopt(MMAP_MAX, 0) == 1 };
    assert!(is_set, "malloc takes its parameters");
}

#[cfg(test)]
mod tests {
    use super::*;

    fn parse(line: &str) -> Option<Options> {
        Options::parse(line.split(' ').map(String::from))
    }

    #[test]
    fn a_page_is_written_of_all_workloads() {
        assert!(parse("--rounds 11 --page docs/SPEED.md").is_some());
        assert!(parse("--page docs/SPEED.md a1").is_none());
        assert!(parse("--page docs/SPEED.md --alone port").is_none());
        assert!(parse("--page docs/SPEED.md --times").is_none());
        assert!(parse("--alone port m").is_some());
    }

    #[test]
    fn what_is_no_option_is_refused() {
        assert!(parse("--page").is_none());
        assert!(parse("--rounds 0").is_none());
        assert!(parse("--table").is_none());
    }
}
