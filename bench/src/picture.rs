//! A picture of ratios: a bar each, on a logarithmic scale, from 1.00 to the left where the port is
//! faster and to the right where it is slower.

/// A bar, and what is written before it.
pub struct Bar {
    pub id: &'static str,
    pub label: String,
    pub ratio: f64,
}

const WIDTH: usize = 960;
/// Where the labels begin, where the ratios end, and where the scale begins and ends.
const LABELS: usize = 48;
const RATIOS: usize = 490;
const SCALE: [usize; 2] = [510, 940];
const HEADING: &str =
    "Time of the port, divided by that of tendril 0.5.1: below 1.00 the port is faster";
/// How high a line is, and what is above the first and below the last.
const LINE: usize = 17;
const MARGIN: usize = 30;

/// The picture has a ground of its own, so that it can be read wherever it is shown.
const STYLE: &str = "\
text { font: 12px system-ui, -apple-system, 'Segoe UI', Helvetica, Arial, sans-serif; fill: #1f2328 }
.ground { fill: #ffffff } .grid { stroke: #d1d9e0 } .one { stroke: #1f2328 }
.faster { fill: #2f7ed8 } .slower { fill: #d9722e } .end { text-anchor: end } .tick { text-anchor: middle }
@media (prefers-color-scheme: dark) {
  text { fill: #e6edf3 } .ground { fill: #0d1117 } .grid { stroke: #30363d } .one { stroke: #e6edf3 }
  .faster { fill: #4493f8 } .slower { fill: #db6d28 }
}
";

/// Draws the bars as SVG, the least ratio first.
pub fn draw(bars: &[Bar]) -> String {
    let mut sorted: Vec<&Bar> = bars.iter().collect();
    sorted.sort_by(|one, other| one.ratio.total_cmp(&other.ratio));
    let scale = Scale::of(sorted.iter().map(|it| it.ratio));
    let height = 2 * MARGIN + LINE * sorted.len();
    let bars = sorted.iter().enumerate();
    let bars: String = bars
        .map(|(at, bar)| draw_bar(bar, MARGIN + LINE * at, &scale))
        .collect();
    format!(
        "<svg xmlns=\"http://www.w3.org/2000/svg\" viewBox=\"0 0 {WIDTH} {height}\" width=\"{WIDTH}\" \
         height=\"{height}\" role=\"img\">\n\
         <title>{HEADING}</title>\n\
         <style>\n{STYLE}</style>\n\
         <rect class=\"ground\" width=\"{WIDTH}\" height=\"{height}\" rx=\"6\"/>\n\
         <text x=\"12\" y=\"20\">{HEADING}</text>\n\
         {}{bars}</svg>\n",
        draw_grid(&scale, height)
    )
}

/// A line of the grid and its value, above and below, for each tick.
fn draw_grid(scale: &Scale, height: usize) -> String {
    let line = |tick: &f64| {
        let class = if *tick == 1.0 { "one" } else { "grid" };
        let (x, end, below) = (scale.place(*tick), height - MARGIN, height - 12);
        format!(
            "<line class=\"{class}\" x1=\"{x:.1}\" y1=\"{MARGIN}\" x2=\"{x:.1}\" y2=\"{end}\"/>\
             <text class=\"tick\" x=\"{x:.1}\" y=\"20\">{tick:.2}</text>\
             <text class=\"tick\" x=\"{x:.1}\" y=\"{below}\">{tick:.2}</text>\n"
        )
    };
    scale.ticks.iter().map(line).collect()
}

fn draw_bar(bar: &Bar, top: usize, scale: &Scale) -> String {
    let (one, end) = (scale.place(1.0), scale.place(bar.ratio));
    let class = if bar.ratio <= 1.0 { "faster" } else { "slower" };
    let (left, width) = (one.min(end), (one - end).abs());
    let (base, y, height) = (top + LINE - 5, top + 3, LINE - 5);
    let (id, label, ratio) = (bar.id, escaped(&bar.label), bar.ratio);
    format!(
        "<text x=\"12\" y=\"{base}\">{id}</text><text x=\"{LABELS}\" y=\"{base}\">{label}</text>\
         <text class=\"end\" x=\"{RATIOS}\" y=\"{base}\">{ratio:.2}</text>\
         <rect class=\"{class}\" x=\"{left:.1}\" y=\"{y}\" width=\"{width:.1}\" height=\"{height}\"/>\n"
    )
}

fn escaped(text: &str) -> String {
    text.replace('&', "&amp;").replace('<', "&lt;")
}

/// A logarithmic scale, from the first tick to the last.
struct Scale {
    ticks: Vec<f64>,
}

impl Scale {
    /// The least one that has all the ratios, and 0.5 to 2.
    fn of(ratios: impl Iterator<Item = f64>) -> Scale {
        let (low, high) = ratios.fold((0.5, 2.0), |(low, high): (f64, f64), it| {
            (low.min(it), high.max(it))
        });
        let ticks: Vec<f64> = ticks().collect();
        let first = ticks.iter().rposition(|it| *it <= low).unwrap_or(0);
        let last = ticks.iter().position(|it| *it >= high);
        let last = last.unwrap_or(ticks.len() - 1);
        Scale {
            ticks: ticks[first..=last].to_vec(),
        }
    }

    /// Where a ratio is, from the left.
    fn place(&self, ratio: f64) -> f64 {
        let [left, right] = SCALE.map(|it| it as f64);
        let (first, last) = (self.ticks[0], self.ticks[self.ticks.len() - 1]);
        left + (right - left) * (ratio / first).ln() / (last / first).ln()
    }
}

/// 1, 2 and 5 of each power of ten that a ratio could have.
fn ticks() -> impl Iterator<Item = f64> {
    let powers = [0.001, 0.01, 0.1, 1.0, 10.0, 100.0];
    powers
        .into_iter()
        .flat_map(|power| [1.0, 2.0, 5.0].map(|it| it * power))
}

#[cfg(test)]
mod tests {
    use super::*;

    fn bar(id: &'static str, ratio: f64) -> Bar {
        Bar {
            id,
            label: "cut at '<' & kept".into(),
            ratio,
        }
    }

    #[test]
    fn a_scale_has_all_ratios_and_one() {
        let ticks = |ratios: &[f64]| Scale::of(ratios.iter().copied()).ticks;
        assert_eq!(ticks(&[0.9, 1.1]), [0.5, 1.0, 2.0]);
        assert_eq!(ticks(&[3.7, 0.11]), [0.1, 0.2, 0.5, 1.0, 2.0, 5.0]);
    }

    #[test]
    fn a_place_is_by_the_logarithm() {
        let scale = Scale::of([0.5, 2.0].into_iter());
        let places = [0.5, 1.0, 2.0].map(|it| scale.place(it));
        assert_eq!(places, [510.0, 725.0, 940.0]);
    }

    #[test]
    fn bars_go_from_one_to_their_ratio() {
        let scale = Scale::of([0.5, 2.0].into_iter());
        let faster = draw_bar(&bar("a1", 0.5), 0, &scale);
        assert!(faster.contains("class=\"faster\" x=\"510.0\" y=\"3\" width=\"215.0\""));
        let slower = draw_bar(&bar("f", 2.0), 0, &scale);
        assert!(slower.contains("class=\"slower\" x=\"725.0\" y=\"3\" width=\"215.0\""));
    }

    #[test]
    fn a_picture_has_its_bars_sorted() {
        let picture = draw(&[bar("f", 3.7), bar("a2", 0.11), bar("a1", 0.97)]);
        let place = |id: &str| picture.find(&format!(">{id}</text>"));
        assert!(place("a2").is_some() && place("a2") < place("a1") && place("a1") < place("f"));
        assert_eq!(picture.matches("cut at '&lt;' &amp; kept").count(), 3);
    }
}
