//! The results as a page shows them: what was run, a picture, and a table. They are written into
//! the page between two marks, so that nobody copies a number.

use crate::picture::{self, Bar};
use crate::results::{Results, Role, Timed};
use std::fmt::{self, Display, Formatter};
use std::path::{Path, PathBuf};
use std::process::Command;
use std::{fs, io, iter, thread};

const BEGIN: &str = "<!-- table: written by bench -->";
const END: &str = "<!-- end of the table -->";

/// What the picture is called. It is a neighbour of the page.
const PICTURE: &str = "speed.svg";
const ALTERNATIVE: &str = "The port's time, divided by the other's: a bar for each row";

/// What the contenders are called that the picture compares the port with unless it says more.
const RUST_CRATE: &str = "tendril 0.5.1";

/// The columns of what a user would take instead.
const INSTEAD: [(Role, &str); 4] = [
    (Role::Owned, "`String`"),
    (Role::Counted, "`Rc<str>`"),
    (Role::Bytes, "`bytes`"),
    (Role::Alone, "simdutf8, encoding_rs"),
];

/// What was run, and where.
pub struct Run {
    date: String,
    rounds: usize,
    /// How many programs the rounds are of.
    programs: usize,
    size: usize,
    processors: usize,
    model: String,
}

impl Run {
    pub fn new(rounds: usize, programs: usize, size: usize) -> Run {
        Run {
            date: today(),
            rounds,
            programs,
            size,
            processors: thread::available_parallelism().map_or(1, usize::from),
            model: processor_model(&fs::read_to_string("/proc/cpuinfo").unwrap_or_default()),
        }
    }
}

impl Display for Run {
    fn fmt(&self, out: &mut Formatter) -> fmt::Result {
        let Run {
            date,
            rounds,
            programs,
            size,
            processors,
            model,
        } = self;
        let places = match programs {
            1 => String::new(),
            _ => format!(", with the code at {programs} places"),
        };
        let compilers = env!("COMPILERS");
        write!(
            out,
            "Run of {date}: {rounds} rounds{places}, large inputs of {size} bytes. \
             Machine: {processors} processors, {model}. Compilers: {compilers}."
        )
    }
}

/// The date, as `2026-11-28`.
fn today() -> String {
    let answer = Command::new("date").args(["-u", "+%F"]).output();
    let date = answer.map(|it| String::from_utf8_lossy(&it.stdout).trim().to_string());
    date.unwrap_or_else(|_| "an unknown day".into())
}

/// The name of the first processor of `/proc/cpuinfo`.
fn processor_model(cpuinfo: &str) -> String {
    let mut lines = cpuinfo.lines().filter_map(|it| it.split_once(':'));
    let model = lines.find(|it| it.0.trim() == "model name");
    model.map_or("of an unknown model", |it| it.1.trim()).into()
}

/// A page that has the marks.
pub struct Page {
    path: PathBuf,
}

impl Page {
    /// Refuses a file that has no marks, so that this is known before the run.
    pub fn open(path: &Path) -> Result<Page, String> {
        let page = Page { path: path.into() };
        page.with("")?;
        Ok(page)
    }

    /// Writes the results between the marks, and the picture.
    pub fn write(&self, run: &Run, results: &[Results]) -> Result<(), String> {
        let lines = lines(results);
        let bars: Vec<Bar> = lines.iter().map(Line::bar).collect();
        let text = format!("{run}\n\n![{ALTERNATIVE}]({PICTURE})\n\n{}", table(&lines));
        let picture = self.path.with_file_name(PICTURE);
        fs::write(&picture, picture::draw(&bars)).map_err(failed(&picture))?;
        fs::write(&self.path, self.with(&text)?).map_err(failed(&self.path))
    }

    /// What the file has, with this text between its marks.
    fn with(&self, text: &str) -> Result<String, String> {
        let page = fs::read_to_string(&self.path).map_err(failed(&self.path))?;
        let page = between_marks(&page, text);
        page.ok_or_else(|| format!("{}: no {BEGIN} before {END}", self.path.display()))
    }
}

/// Says which file couldn't be read or written.
fn failed(path: &Path) -> impl Fn(io::Error) -> String {
    move |error| format!("{}: {error}", path.display())
}

/// The page with another text between its marks, if it has them.
fn between_marks(page: &str, text: &str) -> Option<String> {
    let (before, rest) = page.split_once(BEGIN)?;
    let (_, after) = rest.split_once(END)?;
    Some(format!("{before}{BEGIN}\n\n{text}\n{END}{after}"))
}

/// A line of the table and a bar of the picture: the port beside a contender that it is compared
/// with.
struct Line<'a> {
    results: &'a Results,
    port: &'a Timed,
    divisor: &'a Timed,
}

/// A line for each divisor of each workload that the port took part in, in the order of the ids.
fn lines(results: &[Results]) -> Vec<Line<'_>> {
    let mut lines: Vec<Line> = results.iter().flat_map(lines_of).collect();
    lines.sort_by_key(|it| order(it.results.id));
    lines
}

fn lines_of(results: &Results) -> impl Iterator<Item = Line<'_>> {
    let port = results.first(Role::Port);
    let divisors = results.contenders.iter();
    divisors
        .filter(|it| it.role == Role::Divisor)
        .filter_map(move |divisor| {
            Some(Line {
                results,
                port: port?,
                divisor,
            })
        })
}

/// By the letter of an id, then by its number, then by what follows.
fn order(id: &str) -> (&str, usize, &str) {
    let is_digit = |it: char| it.is_ascii_digit();
    let (letter, rest) = id.split_at(id.find(is_digit).unwrap_or(id.len()));
    let (number, suffix) = rest.split_at(rest.find(|it| !is_digit(it)).unwrap_or(rest.len()));
    (letter, number.parse().unwrap_or(0), suffix)
}

impl Line<'_> {
    fn bar(&self) -> Bar {
        let (name, divisor) = (self.results.name, &self.divisor.name);
        let label = if divisor.starts_with(RUST_CRATE) {
            name.to_string()
        } else {
            format!("{name}, against {divisor}")
        };
        Bar {
            id: self.results.id,
            label,
            ratio: self.port.ratio_to(self.divisor).median,
        }
    }

    /// The median of a contender, in the unit of the row.
    fn figure(&self, contender: &Timed) -> String {
        self.results.unit.show(contender.time().median)
    }

    /// The workload in words. The details stay out where the line before has the same.
    fn words(&self, before: Option<&Line>) -> String {
        let Results { name, details, .. } = self.results;
        match before {
            Some(it) if it.results.details == *details => name.to_string(),
            _ => format!("{name}: {details}"),
        }
    }

    fn cells(&self, before: Option<&Line>, columns: &[(Role, &str)]) -> Vec<String> {
        let mut cells = vec![
            self.results.id.to_string(),
            self.words(before),
            self.divisor.name.clone(),
            self.port.ratio_to(self.divisor).to_string(),
            format!("{} {}", self.figure(self.port), self.results.unit.name()),
            self.figure(self.divisor),
        ];
        cells.extend(columns.iter().map(|(role, _)| {
            let contender = self.results.first(*role);
            contender.map_or(String::new(), |it| self.figure(it))
        }));
        cells
    }
}

fn table(lines: &[Line]) -> String {
    let is_used = |role| lines.iter().any(|it| it.results.first(role).is_some());
    let columns: Vec<_> = INSTEAD.into_iter().filter(|it| is_used(it.0)).collect();
    let mut headings = vec!["Row", "Workload", "Divided by", "Ratio", "Port", "Divisor"];
    headings.extend(columns.iter().map(|it| it.1));
    let rule = format!("|---|---|---|{}\n", "---:|".repeat(headings.len() - 3));
    let before = iter::once(None).chain(lines.iter().map(Some));
    let rows = lines.iter().zip(before);
    let rows = rows.map(|(it, before)| row(&it.cells(before, &columns)));
    row(&headings) + &rule + &rows.collect::<String>()
}

fn row<S: AsRef<str>>(cells: &[S]) -> String {
    let cells = cells.iter().map(|it| format!(" {} |", it.as_ref()));
    format!("|{}\n", cells.collect::<String>())
}

#[cfg(test)]
mod tests {
    use super::*;
    use crate::results::Unit;

    fn run() -> Run {
        Run {
            date: "2026-11-28".into(),
            rounds: 11,
            programs: 4,
            size: 4096,
            processors: 4,
            model: "Intel(R) Xeon(R)".into(),
        }
    }

    fn timed(name: &str, role: Role, seconds: f64) -> Timed {
        Timed {
            name: name.into(),
            role,
            seconds: vec![seconds],
        }
    }

    fn results(id: &'static str, contenders: Vec<Timed>) -> Results {
        Results {
            id,
            name: "clone and drop",
            details: "a text of 10 KB",
            unit: Unit::Calls(1000),
            contenders,
        }
    }

    fn clones(id: &'static str) -> Results {
        results(
            id,
            vec![
                timed("tendril 0.5.1", Role::Divisor, 0.004),
                timed("tendril 0.5.1, Atomic", Role::Unlisted, 0.016),
                timed("Rc<str>", Role::Counted, 0.003),
                timed("port", Role::Port, 0.002),
                timed("port, other", Role::Port, 0.001),
            ],
        )
    }

    fn parts() -> Results {
        let mut parts = results(
            "n4",
            vec![
                timed("runs of tendril 0.5.1", Role::Divisor, 0.004),
                timed("a search by hand", Role::Divisor, 0.001),
                timed("port", Role::Port, 0.002),
            ],
        );
        parts.unit = Unit::Bytes(1_000_000);
        parts
    }

    #[test]
    fn a_text_is_put_between_the_marks() {
        let page = format!("# Speed\n\n{BEGIN}\nold\n{END}\n\nWhy");
        let wanted = format!("# Speed\n\n{BEGIN}\n\nnew\n\n{END}\n\nWhy");
        let written = between_marks(&page, "new\n");
        assert_eq!(written.as_deref(), Some(wanted.as_str()));
        assert_eq!(between_marks(&wanted, "new\n"), written);
    }

    #[test]
    fn a_page_without_the_marks_is_refused() {
        assert_eq!(between_marks("# Speed", "new"), None);
        assert_eq!(between_marks(&format!("{END}\n{BEGIN}"), "new"), None);
    }

    #[test]
    fn a_page_gets_the_run_and_the_picture() {
        let folder = std::env::temp_dir().join(format!("bench_report_{}", std::process::id()));
        fs::create_dir_all(&folder).unwrap();
        let path = folder.join("SPEED.md");
        assert!(Page::open(&path).is_err());
        fs::write(&path, format!("# Speed\n{BEGIN}\n{END}\nWhy\n")).unwrap();
        let page = Page::open(&path).unwrap();
        page.write(&run(), &[clones("d1")]).unwrap();
        let written = fs::read_to_string(&path).unwrap();
        assert!(written.starts_with(&format!("# Speed\n{BEGIN}\n\nRun of 2026-11-28")));
        assert!(written.contains("(speed.svg)\n\n| Row |"));
        assert!(written.ends_with(&format!(" |\n\n{END}\nWhy\n")));
        let picture = fs::read_to_string(folder.join("speed.svg")).unwrap();
        assert!(picture.contains(">clone and drop</text>"));
        fs::remove_dir_all(folder).unwrap();
    }

    #[test]
    fn a_table_has_a_line_for_each_divisor_and_the_columns_in_use() {
        let results = [parts(), clones("d1")];
        let wanted = "\
| Row | Workload | Divided by | Ratio | Port | Divisor | `Rc<str>` |
|---|---|---|---:|---:|---:|---:|
| d1 | clone and drop: a text of 10 KB | tendril 0.5.1 | 0.50 (0.50 to 0.50) | 2000 ns | 4000 | 3000 |
| n4 | clone and drop | runs of tendril 0.5.1 | 0.50 (0.50 to 0.50) | 500 MB/s | 250 |  |
| n4 | clone and drop | a search by hand | 2.00 (2.00 to 2.00) | 500 MB/s | 1000 |  |
";
        assert_eq!(table(&lines(&results)), wanted);
    }

    #[test]
    fn a_run_says_where_and_how() {
        let wanted = "Run of 2026-11-28: 11 rounds, with the code at 4 places, large inputs of \
                      4096 bytes. Machine: 4 processors, Intel(R) Xeon(R). Compilers: rustc ";
        assert!(run().to_string().starts_with(wanted));
        let alone = Run {
            programs: 1,
            ..run()
        };
        assert!(alone.to_string().contains(": 11 rounds, large inputs of"));
    }

    #[test]
    fn workloads_without_the_port_are_left_out() {
        let alone = results("d1", vec![timed("tendril 0.5.1", Role::Divisor, 0.004)]);
        assert!(lines(&[alone]).is_empty());
    }

    #[test]
    fn ids_are_sorted_by_their_numbers() {
        let mut ids = ["v10", "d2", "v9", "f", "d1a", "d1"];
        ids.sort_by_key(|it| order(it));
        assert_eq!(ids, ["d1", "d1a", "d2", "f", "v9", "v10"]);
    }

    #[test]
    fn bars_say_what_is_not_a_call_of_the_rust_crate() {
        let results = [clones("d1"), parts()];
        let labels: Vec<String> = lines(&results).iter().map(|it| it.bar().label).collect();
        let wanted = [
            "clone and drop",
            "clone and drop, against runs of tendril 0.5.1",
            "clone and drop, against a search by hand",
        ];
        assert_eq!(labels, wanted);
    }

    #[test]
    fn the_processor_is_the_first_that_is_listed() {
        let cpuinfo =
            "processor\t: 0\nmodel\t\t: 85\nmodel name\t: Intel(R) Xeon(R)\n\nprocessor\t: 1";
        assert_eq!(processor_model(cpuinfo), "Intel(R) Xeon(R)");
        assert_eq!(processor_model(""), "of an unknown model");
    }
}
