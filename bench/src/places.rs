//! The same program with its code at several places. A page has rounds of each, since the place
//! that a link gives to a loop changes its time.

use crate::measure::Workload;
use crate::results::Results;
use std::arch::global_asm;
use std::collections::HashMap;
use std::error::Error;
use std::hint::black_box;
use std::path::{Path, PathBuf};
use std::process::Command;
use std::{fs, io};

/// How many bytes stand before the code of this program: build.sh sets `PLACE` for each.
const PLACE: usize = match option_env!("PLACE") {
    Some(bytes) => match usize::from_str_radix(bytes, 10) {
        Ok(place) => place,
        Err(_) => panic!("PLACE is a number of bytes"),
    },
    None => 0,
};

/// How many rounds a program measures before the next one has its turn.
const ROUNDS: usize = 2;

global_asm!(
    ".globl bench_place",
    "bench_place:",
    ".skip {place}",
    place = const PLACE
);

/// Has the linker keep the bytes before the code.
pub fn keep() {
    unsafe extern "C" {
        static bench_place: u8;
    }
    black_box(&raw const bench_place);
}

/// The programs that build.sh made, in the order of their places.
pub fn programs() -> Result<Vec<PathBuf>, String> {
    let folder = Path::new(env!("CARGO_MANIFEST_DIR")).join("target/places");
    let found = fs::read_dir(&folder).and_then(|it| it.map(|it| Ok(it?.path())).collect());
    let mut programs: Vec<PathBuf> =
        found.map_err(|error: io::Error| format!("{}: {error}", folder.display()))?;
    programs.sort();
    if programs.is_empty() {
        return Err(format!("{} has no programs", folder.display()));
    }
    Ok(programs)
}

/// How many rounds are measured for at least so many: as many in each program.
pub fn whole_rounds(rounds: usize, programs: usize) -> usize {
    rounds.next_multiple_of(ROUNDS * programs)
}

/// Measures the workloads by turns in each of the programs.
pub fn measure(
    workloads: &[Workload],
    programs: &[PathBuf],
    rounds: usize,
    size: usize,
) -> Result<Vec<Results>, Box<dyn Error>> {
    let mut times = Times::default();
    for _ in 0..rounds / (ROUNDS * programs.len()) {
        for program in programs {
            times.add(&lines_of(program, size)?)?;
        }
    }
    let results = workloads
        .iter()
        .map(|it| it.results_by(|name| times.of(it.id, name)));
    results
        .collect::<Option<_>>()
        .ok_or_else(|| "a program left a contender out".into())
}

/// What a program prints of its rounds.
fn lines_of(program: &Path, size: usize) -> Result<String, Box<dyn Error>> {
    let mut command = Command::new(program);
    command.args([
        "--rounds",
        &ROUNDS.to_string(),
        "--size",
        &size.to_string(),
        "--times",
    ]);
    let output = command.output()?;
    if !output.status.success() {
        let said = String::from_utf8_lossy(&output.stderr);
        return Err(format!("{}: {}: {said}", program.display(), output.status).into());
    }
    Ok(String::from_utf8(output.stdout)?)
}

/// The results as lines, one for each contender: the workload, the contender, and its seconds.
pub fn as_lines(results: &Results) -> String {
    let line = |name: &str, seconds: &[f64]| {
        let seconds: Vec<String> = seconds.iter().map(f64::to_string).collect();
        format!("{}\t{name}\t{}\n", results.id, seconds.join(" "))
    };
    let contenders = results.contenders.iter();
    contenders.map(|it| line(&it.name, &it.seconds)).collect()
}

/// The seconds of each contender of each workload, over all programs.
#[derive(Default)]
struct Times {
    all: HashMap<(String, String), Vec<f64>>,
}

impl Times {
    fn add(&mut self, lines: &str) -> Result<(), String> {
        for line in lines.lines() {
            let (key, seconds) = parse(line).ok_or_else(|| format!("no line of times: {line}"))?;
            self.all.entry(key).or_default().extend(seconds);
        }
        Ok(())
    }

    fn of(&self, id: &str, name: &str) -> Option<Vec<f64>> {
        self.all.get(&(id.into(), name.into())).cloned()
    }
}

fn parse(line: &str) -> Option<((String, String), Vec<f64>)> {
    let (id, rest) = line.split_once('\t')?;
    let (name, seconds) = rest.split_once('\t')?;
    let seconds = seconds
        .split(' ')
        .map(|it| it.parse().ok())
        .collect::<Option<_>>()?;
    Some(((id.into(), name.into()), seconds))
}

#[cfg(test)]
mod tests {
    use super::*;
    use crate::results::{Role, Timed, Unit};

    fn clones(seconds: &[f64]) -> Results {
        Results {
            id: "d1",
            name: "clone and drop",
            details: "a text of 10 KB",
            unit: Unit::Calls(1000),
            contenders: vec![Timed {
                name: "tendril 0.5.1, Atomic".into(),
                role: Role::Divisor,
                seconds: seconds.into(),
            }],
        }
    }

    #[test]
    fn the_times_of_all_programs_are_joined() {
        let mut times = Times::default();
        times.add(&as_lines(&clones(&[0.5, 1e-9]))).unwrap();
        times.add(&as_lines(&clones(&[0.25]))).unwrap();
        let joined = times.of("d1", "tendril 0.5.1, Atomic");
        assert_eq!(joined, Some(vec![0.5, 1e-9, 0.25]));
        assert_eq!(times.of("d1", "port"), None);
    }

    #[test]
    fn other_lines_are_refused() {
        assert!(Times::default().add("d1\tport\t0.5 x\n").is_err());
        assert!(Times::default().add("Run of 2026-11-30\n").is_err());
    }

    #[test]
    fn each_program_has_as_many_rounds() {
        assert_eq!(whole_rounds(13, 4), 16);
        assert_eq!(whole_rounds(16, 4), 16);
    }
}
