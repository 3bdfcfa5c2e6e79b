//! Charts of grouped bars on a log scale, as SVG.

use std::fmt::Write;

/// One panel below the other, with one legend.
pub struct Chart {
    pub title: String,
    /// A line below the legend.
    pub note: String,
    pub groups: Vec<String>,
    /// Name and colour of each bar of a group.
    pub series: Vec<(String, String)>,
    pub panels: Vec<Panel>,
}

pub struct Panel {
    pub title: String,
    /// For each group a value for each of the series; none has no bar.
    pub values: Vec<Vec<Option<f64>>>,
}

const WIDTH: f64 = 1060.0;
const LEFT: f64 = 60.0;
const INNER: f64 = WIDTH - LEFT - 14.0;
const LEGEND_COLUMNS: usize = 5;
/// A panel's bars, and with its title and the names of the groups.
const BARS: f64 = 200.0;
const PANEL: f64 = 270.0;

impl Chart {
    pub fn svg(&self) -> String {
        let rows = self.series.len().div_ceil(LEGEND_COLUMNS) as f64;
        let head = 72.0 + 20.0 * rows;
        let height = head + PANEL * self.panels.len() as f64;
        let mut out = format!(
            "<svg xmlns=\"http://www.w3.org/2000/svg\" viewBox=\"0 0 {WIDTH} {height}\" \
             font-family=\"sans-serif\" font-size=\"13\" fill=\"#222\">\n\
             <rect width=\"{WIDTH}\" height=\"{height}\" fill=\"white\"/>\n"
        );
        out += &text(
            LEFT,
            26.0,
            "font-size=\"16\" font-weight=\"bold\"",
            &self.title,
        );
        out += &self.legend();
        out += &text(LEFT, 56.0 + 20.0 * rows, "font-size=\"12\"", &self.note);
        for (i, panel) in self.panels.iter().enumerate() {
            let top = head + PANEL * i as f64;
            writeln!(out, "<g transform=\"translate(0 {top})\">").unwrap();
            out += &self.panel(panel);
            out += "</g>\n";
        }
        out + "</svg>\n"
    }

    fn legend(&self) -> String {
        let column = INNER / LEGEND_COLUMNS as f64;
        let mut out = String::new();
        for (i, (name, colour)) in self.series.iter().enumerate() {
            let x = LEFT + column * (i % LEGEND_COLUMNS) as f64;
            let y = 42.0 + 20.0 * (i / LEGEND_COLUMNS) as f64;
            out += &rect(x, y, 13.0, 13.0, colour);
            out += &text(x + 19.0, y + 11.0, "", name);
        }
        out
    }

    fn panel(&self, panel: &Panel) -> String {
        let values = panel.values.iter().flatten().flatten();
        let scale = Scale::of(values.copied());
        let mut out = text(LEFT, 18.0, "font-weight=\"bold\"", &panel.title);
        out += &scale.grid();
        let group = INNER / self.groups.len() as f64;
        for (i, (name, values)) in self.groups.iter().zip(&panel.values).enumerate() {
            let middle = LEFT + group * (i as f64 + 0.5);
            out += &self.bars(values, middle, group, &scale);
            out += &text(middle, 244.0, "text-anchor=\"middle\"", name);
        }
        out
    }

    /// The bars of one group, side by side, each with its value above it.
    fn bars(&self, values: &[Option<f64>], middle: f64, group: f64, scale: &Scale) -> String {
        let present = values.iter().flatten().count() as f64;
        let width = (0.88 * group / present).min(24.0);
        let mut x = middle - width * present / 2.0;
        let mut out = String::new();
        for (value, (_, colour)) in values.iter().zip(&self.series) {
            let Some(value) = *value else { continue };
            let y = scale.y(value);
            out += &rect(x, y, width - 1.5, scale.y(scale.low) - y, colour);
            let (along, above) = (x + width / 2.0 + 3.0, y - 4.0);
            let turned =
                format!("font-size=\"11\" transform=\"rotate(-90 {along:.1} {above:.1})\"");
            out += &text(along, above, &turned, &short(value));
            x += width;
        }
        out
    }
}

/// A log scale between two numbers of the row 1, 2, 5, 10, and so on.
struct Scale {
    low: f64,
    high: f64,
}

impl Scale {
    /// The lowest value has a bar that one can see.
    fn of(values: impl Iterator<Item = f64> + Clone) -> Scale {
        let least = values.clone().fold(f64::INFINITY, f64::min);
        let most = values.fold(0.0, f64::max);
        let below = row().filter(|&mark| mark < least / 1.5);
        Scale {
            low: below.fold(0.0, f64::max),
            high: row().find(|&mark| mark >= most).expect("the row is long"),
        }
    }

    fn y(&self, value: f64) -> f64 {
        let part = (value / self.low).ln() / (self.high / self.low).ln();
        // Room above for the numbers at the bars.
        (25.0 + BARS) - part * (BARS - 30.0)
    }

    /// A line and a number for each mark of the row.
    fn grid(&self) -> String {
        let mut out = String::new();
        for mark in row().filter(|&mark| mark >= self.low && mark <= self.high) {
            let y = self.y(mark);
            out += &rect(LEFT, y, INNER, 0.7, "#ccc");
            out += &text(
                LEFT - 6.0,
                y + 4.0,
                "font-size=\"11\" text-anchor=\"end\"",
                &short(mark),
            );
        }
        out
    }
}

fn row() -> impl Iterator<Item = f64> {
    (-3..9).flat_map(|power| [1.0, 2.0, 5.0].map(|mark| mark * 10f64.powi(power)))
}

/// A number with the places that tell something.
fn short(value: f64) -> String {
    let places = match value {
        _ if value < 1.0 => 2,
        _ if value < 100.0 => 1,
        _ => return format!("{value:.0}"),
    };
    let all = format!("{value:.places$}");
    all.trim_end_matches('0').trim_end_matches('.').into()
}

fn rect(x: f64, y: f64, width: f64, height: f64, colour: &str) -> String {
    format!(
        "<rect x=\"{x:.1}\" y=\"{y:.1}\" width=\"{width:.1}\" height=\"{height:.1}\" fill=\"{colour}\"/>\n"
    )
}

fn text(x: f64, y: f64, style: &str, words: &str) -> String {
    format!("<text x=\"{x:.1}\" y=\"{y:.1}\" {style}>{words}</text>\n")
}

#[cfg(test)]
mod tests {
    use super::*;

    #[test]
    fn the_scale_is_of_the_row() {
        let scale = Scale::of([1.0, 47.2, 3.0].into_iter());
        assert!((scale.low, scale.high) == (0.5, 50.0));
        let (low, high) = (scale.y(0.5), scale.y(50.0));
        assert!((low - 225.0).abs() < 0.01 && (high - 55.0).abs() < 0.01);
        // 5 is in the middle of 0.5 and 50.
        assert!((scale.y(5.0) - (low + high) / 2.0).abs() < 0.01);
    }

    #[test]
    fn numbers_are_short() {
        let shown = [0.05, 0.5, 1.0, 1.98, 2.36, 99.5, 200.0, 283.4].map(short);
        assert_eq!(
            shown,
            ["0.05", "0.5", "1", "2", "2.4", "99.5", "200", "283"]
        );
    }

    /// Two groups of two, one without a bar: three bars, two boxes of the
    /// legend, the background, and a line for each of 0.5, 1, 2, 5, 10.
    #[test]
    fn a_bar_for_each_value() {
        let series = |name: &str| (name.to_string(), "red".to_string());
        let chart = Chart {
            title: "t".into(),
            note: "n".into(),
            groups: vec!["a".into(), "b".into()],
            series: vec![series("x"), series("y")],
            panels: vec![Panel {
                title: "p".into(),
                values: vec![vec![Some(1.0), Some(2.0)], vec![None, Some(8.0)]],
            }],
        };
        assert_eq!(chart.svg().matches("<rect").count(), 3 + 2 + 1 + 5);
    }
}
