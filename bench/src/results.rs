//! What the rounds of a workload gave: the times of its contenders, and the figures made of them.

use std::fmt::{self, Display, Formatter};

/// What a workload's figures are given in.
#[derive(Clone, Copy)]
pub enum Unit {
    /// Megabytes a second, since the work goes over so many bytes.
    Bytes(usize),
    /// Nanoseconds a call, since the work is so many calls.
    Calls(usize),
}

impl Unit {
    pub fn name(self) -> &'static str {
        match self {
            Unit::Bytes(_) => "MB/s",
            Unit::Calls(_) => "ns",
        }
    }

    /// The figure of work that takes these seconds.
    pub fn show(self, seconds: f64) -> String {
        match self {
            Unit::Bytes(count) => format!("{:.0}", count as f64 / seconds / 1e6),
            Unit::Calls(count) => show_nanoseconds(seconds * 1e9 / count as f64),
        }
    }
}

fn show_nanoseconds(time: f64) -> String {
    let places = if time < 100.0 { 2 } else { 0 };
    format!("{time:.places$}")
}

/// What a contender is in the table of the results.
#[derive(Clone, Copy, Debug, PartialEq, Eq)]
pub enum Role {
    /// The port, or another build of it.
    Port,
    /// What the port's time is divided by.
    Divisor,
    /// What a user would take instead: an owned text of std.
    Owned,
    /// A counted text of std.
    Counted,
    /// The crate `bytes`.
    Bytes,
    /// simdutf8 or encoding_rs by itself.
    Alone,
    /// Only the driver's output has it.
    Unlisted,
}

/// A contender, and the seconds that it took in each round.
pub struct Timed {
    pub name: String,
    pub role: Role,
    pub seconds: Vec<f64>,
}

impl Timed {
    pub fn time(&self) -> Spread {
        Spread::of(self.seconds.iter().copied())
    }

    /// The ratio of its time to the other's in the same round.
    pub fn ratio_to(&self, other: &Timed) -> Spread {
        let rounds = self.seconds.iter().zip(&other.seconds);
        Spread::of(rounds.map(|(own, others)| own / others))
    }
}

/// How figures of several rounds lie.
#[derive(Debug, PartialEq)]
pub struct Spread {
    pub least: f64,
    pub median: f64,
    /// The range of all but the outer tenths.
    pub low: f64,
    pub high: f64,
}

impl Spread {
    /// Of at least one figure.
    fn of(figures: impl Iterator<Item = f64>) -> Spread {
        let mut sorted: Vec<f64> = figures.collect();
        sorted.sort_by(f64::total_cmp);
        let last = sorted.len() - 1;
        let tenth = sorted.len() / 10;
        Spread {
            least: sorted[0],
            median: (sorted[last / 2] + sorted[sorted.len() / 2]) / 2.0,
            low: sorted[tenth],
            high: sorted[last - tenth],
        }
    }
}

/// The median and the range.
impl Display for Spread {
    fn fmt(&self, out: &mut Formatter) -> fmt::Result {
        write!(
            out,
            "{:.2} ({:.2} to {:.2})",
            self.median, self.low, self.high
        )
    }
}

/// The results of a workload.
pub struct Results {
    pub id: &'static str,
    /// What it does, in a few words.
    pub name: &'static str,
    /// What its name leaves out.
    pub details: &'static str,
    pub unit: Unit,
    /// The first is what the others are compared with.
    pub contenders: Vec<Timed>,
}

impl Results {
    /// The first contender of a role.
    pub fn first(&self, role: Role) -> Option<&Timed> {
        self.contenders.iter().find(|it| it.role == role)
    }
}

/// The driver's output: all contenders.
impl Display for Results {
    fn fmt(&self, out: &mut Formatter) -> fmt::Result {
        let unit = self.unit.name();
        writeln!(out, "\n### {} {}: {}\n", self.id, self.name, self.details)?;
        writeln!(
            out,
            "| contender | best {unit} | median {unit} | time / the first's (median, range) |"
        )?;
        writeln!(out, "|---|---:|---:|---:|")?;
        for it in &self.contenders {
            let time = it.time();
            writeln!(
                out,
                "| {} | {} | {} | {} |",
                it.name,
                self.unit.show(time.least),
                self.unit.show(time.median),
                it.ratio_to(&self.contenders[0]),
            )?;
        }
        Ok(())
    }
}

#[cfg(test)]
mod tests {
    use super::*;

    fn timed(seconds: &[f64]) -> Timed {
        Timed {
            name: "String".into(),
            role: Role::Owned,
            seconds: seconds.into(),
        }
    }

    #[test]
    fn figures_are_for_each_second_or_each_call() {
        assert_eq!(Unit::Bytes(4_000_000).show(0.002), "2000");
        assert_eq!(Unit::Calls(1000).show(0.000_002_5), "2.50");
        assert_eq!(Unit::Calls(1000).show(0.001_25), "1250");
    }

    #[test]
    fn a_spread_leaves_the_outer_tenths_out() {
        let times = timed(&[9.0, 1.0, 2.0, 3.0, 4.0, 5.0, 6.0, 7.0, 8.0, 10.0, 99.0]);
        let wanted = Spread {
            least: 1.0,
            median: 6.0,
            low: 2.0,
            high: 10.0,
        };
        assert_eq!(times.time(), wanted);
    }

    #[test]
    fn the_median_of_an_even_number_is_between_the_middle_ones() {
        assert_eq!(timed(&[4.0, 1.0, 2.0, 9.0]).time().median, 3.0);
        assert_eq!(timed(&[4.0]).time().median, 4.0);
    }

    #[test]
    fn ratios_are_of_one_round_each() {
        let ratio = timed(&[1.0, 3.0, 8.0]).ratio_to(&timed(&[2.0, 2.0, 2.0]));
        assert_eq!(ratio.to_string(), "1.50 (0.50 to 4.00)");
    }

    #[test]
    fn the_output_has_all_contenders() {
        let results = Results {
            id: "d1",
            name: "clone and drop",
            details: "a text of 10 KB",
            unit: Unit::Calls(1000),
            contenders: vec![timed(&[0.001]), timed(&[0.002])],
        };
        let wanted = "
### d1 clone and drop: a text of 10 KB

| contender | best ns | median ns | time / the first's (median, range) |
|---|---:|---:|---:|
| String | 1000 | 1000 | 1.00 (1.00 to 1.00) |
| String | 2000 | 2000 | 2.00 (2.00 to 2.00) |
";
        assert_eq!(results.to_string(), wanted);
    }
}
