//! Curves of rates over decibels as an SVG drawing with a logarithmic axis.
//!
//! - [`Curve`]: its name and points. A point of [`FEW`] failures or more has a full mark, one of fewer a hollow
//!   one, since it may well be off by half, and one of none an arrow that points down from 3 over the number of
//!   frames: with so many frames and no failure the rate is below that, nineteen times in twenty.
//! - [`draw`]: the drawing.

use std::fmt::Write;

/// With fewer failures a point is uncertain.
pub const FEW: u64 = 10;

/// What is known at a point.
#[derive(Clone, Copy, Debug, PartialEq)]
enum Known {
    Well,
    Uncertain,
    Bound,
}

/// Where a curve passes, and how well it is known there.
struct Point {
    decibels: f64,
    rate: f64,
    known: Known,
}

/// One curve.
pub struct Curve {
    name: String,
    colour: &'static str,
    points: Vec<Point>,
    style: Style,
}

/// How a curve is drawn.
#[derive(Clone, Copy, PartialEq, Eq)]
enum Style {
    /// A full line with full marks.
    Measured,
    /// A dashed line with hollow marks.
    Compared,
    /// A dashed line without marks.
    Computed,
}

impl Curve {
    /// A curve whose points are marked, in the colour of this number.
    pub fn measured(name: String, colour: usize) -> Curve {
        Curve {
            name,
            colour: COLOURS[colour % COLOURS.len()],
            points: Vec::new(),
            style: Style::Measured,
        }
    }

    /// A dashed curve with hollow marks, to stand beside a measured one of its colour.
    pub fn compared(name: String, colour: usize) -> Curve {
        Curve {
            style: Style::Compared,
            ..Curve::measured(name, colour)
        }
    }

    /// A dashed curve without marks.
    pub fn computed(name: String, colour: usize) -> Curve {
        Curve {
            style: Style::Computed,
            ..Curve::measured(name, colour)
        }
    }

    pub fn name(&self) -> &str {
        &self.name
    }

    /// A point that is computed.
    pub fn add(&mut self, decibels: f64, rate: f64) {
        let known = Known::Well;
        self.points.push(Point {
            decibels,
            rate,
            known,
        });
    }

    /// A point at which so many of so many frames failed.
    pub fn add_counted(&mut self, decibels: f64, failures: u64, frames: u64) {
        let (failed, known) = match failures {
            0 => (3, Known::Bound),
            1..FEW => (failures, Known::Uncertain),
            _ => (failures, Known::Well),
        };
        let rate = failed as f64 / frames as f64;
        self.points.push(Point {
            decibels,
            rate,
            known,
        });
    }

    /// The attributes of its line.
    fn stroke(&self) -> String {
        let dashes = match self.style {
            Style::Measured => "",
            Style::Compared | Style::Computed => " stroke-dasharray=\"5 4\"",
        };
        format!("stroke=\"{}\" stroke-width=\"2\"{dashes}", self.colour)
    }

    /// Its mark at a point of the drawing.
    fn mark(&self, out: &mut String, x: f64, y: f64, known: Known) {
        let colour = self.colour;
        let fill = match (self.style, known) {
            (Style::Computed, _) => return,
            (_, Known::Bound) => {
                let arrow = format!("M{x:.1} {y:.1}v14m-4 -6l4 6l4 -6M{:.1} {y:.1}h10", x - 5.0);
                let stroke = format!("stroke=\"{colour}\" stroke-width=\"1.5\"");
                return put(
                    out,
                    format_args!("<path d=\"{arrow}\" fill=\"none\" {stroke}/>"),
                );
            }
            (Style::Measured, Known::Well) => format!("fill=\"{colour}\""),
            _ => format!("fill=\"#ffffff\" stroke=\"{colour}\" stroke-width=\"1.5\""),
        };
        put(
            out,
            format_args!("<circle cx=\"{x:.1}\" cy=\"{y:.1}\" r=\"3.5\" {fill}/>"),
        );
    }
}

const WIDTH: f64 = 760.0;
const HEIGHT: f64 = 520.0;
const LEFT: f64 = 80.0;
const RIGHT: f64 = 740.0;
const TOP: f64 = 50.0;
const BOTTOM: f64 = 460.0;

/// The axis goes down to 10 to the minus so much.
const DECADES: i32 = 4;

/// What the marks of a measured curve mean.
const LEGEND: &str =
    "full line: hollow mark, fewer than ten failures; arrow, no failure: below it, 19 times in 20";

/// A line so many decibels apart.
const GRID: f64 = 0.5;

/// Colours that the colour-blind tell apart, by number.
const COLOURS: [&str; 6] = [
    "#000000", "#0072b2", "#009e73", "#d55e00", "#cc79a7", "#999999",
];

/// Where decibels and rates stand.
struct Axes {
    low: f64,
    high: f64,
}

impl Axes {
    fn x(&self, decibels: f64) -> f64 {
        LEFT + (RIGHT - LEFT) * (decibels - self.low) / (self.high - self.low)
    }

    fn y(&self, rate: f64) -> f64 {
        TOP + (BOTTOM - TOP) * -rate.log10() / f64::from(DECADES)
    }
}

/// The curves, with a title.
pub fn draw(title: &str, curves: &[Curve]) -> String {
    let decibels = || {
        curves
            .iter()
            .flat_map(|curve| &curve.points)
            .map(|point| point.decibels)
    };
    let axes = Axes {
        low: (decibels().fold(f64::INFINITY, f64::min) / GRID).floor() * GRID,
        high: (decibels().fold(f64::NEG_INFINITY, f64::max) / GRID).ceil() * GRID,
    };
    let mut out = format!(
        "<svg xmlns=\"http://www.w3.org/2000/svg\" viewBox=\"0 0 {WIDTH} {HEIGHT}\" width=\"{WIDTH}\" height=\"{HEIGHT}\" \
         font-family=\"sans-serif\" font-size=\"14\">\n\
         <rect width=\"{WIDTH}\" height=\"{HEIGHT}\" fill=\"#ffffff\"/>\n\
         <text x=\"{LEFT}\" y=\"30\" font-size=\"17\">{title}</text>\n\
         <text x=\"{RIGHT}\" y=\"45\" font-size=\"11\" text-anchor=\"end\">{LEGEND}</text>\n"
    );
    grid(&mut out, &axes);
    for curve in curves {
        line(&mut out, &axes, curve);
    }
    legend(&mut out, curves);
    out.push_str("</svg>\n");
    out
}

/// Appends one line of SVG.
fn put(out: &mut String, line: std::fmt::Arguments) {
    writeln!(out, "{line}").expect("a string takes all");
}

fn grid(out: &mut String, axes: &Axes) {
    for decade in 0..=DECADES {
        let y = axes.y(10f64.powi(-decade));
        put(
            out,
            format_args!("<path d=\"M{LEFT} {y:.1}H{RIGHT}\" stroke=\"#bbbbbb\"/>"),
        );
        let name = if decade == 0 {
            "1".to_string()
        } else {
            format!("10<tspan dy=\"-6\" font-size=\"10\">−{decade}</tspan>")
        };
        put(
            out,
            format_args!(
                "<text x=\"{}\" y=\"{:.1}\" text-anchor=\"end\">{name}</text>",
                LEFT - 8.0,
                y + 5.0
            ),
        );
        for part in (2..10).filter(|_| decade < DECADES) {
            let y = axes.y(f64::from(part) * 10f64.powi(-decade - 1));
            put(
                out,
                format_args!("<path d=\"M{LEFT} {y:.1}H{RIGHT}\" stroke=\"#eeeeee\"/>"),
            );
        }
    }
    let mut decibels = axes.low;
    while decibels <= axes.high {
        let x = axes.x(decibels);
        put(
            out,
            format_args!("<path d=\"M{x:.1} {TOP}V{BOTTOM}\" stroke=\"#dddddd\"/>"),
        );
        put(
            out,
            format_args!(
                "<text x=\"{x:.1}\" y=\"{}\" text-anchor=\"middle\">{decibels}</text>",
                BOTTOM + 20.0
            ),
        );
        decibels += GRID;
    }
    put(
        out,
        format_args!(
            "<text x=\"{}\" y=\"{}\" text-anchor=\"middle\">Eb/N0 in dB</text>",
            (LEFT + RIGHT) / 2.0,
            BOTTOM + 45.0
        ),
    );
    let middle = (TOP + BOTTOM) / 2.0;
    put(out, format_args!("<text x=\"24\" y=\"{middle}\" text-anchor=\"middle\" transform=\"rotate(-90 24 {middle})\">frame error rate</text>"));
    put(out, format_args!("<rect x=\"{LEFT}\" y=\"{TOP}\" width=\"{}\" height=\"{}\" fill=\"none\" stroke=\"#444444\"/>", RIGHT - LEFT, BOTTOM - TOP));
}

/// The line joins the points that have failures; a bound stands by itself.
fn line(out: &mut String, axes: &Axes, curve: &Curve) {
    let least = 10f64.powi(-DECADES);
    let at = |point: &Point| (axes.x(point.decibels), axes.y(point.rate), point.known);
    let shown = curve.points.iter().filter(|point| point.rate >= least);
    let points: Vec<(f64, f64, Known)> = shown.map(at).collect();
    let joined = points.iter().filter(|point| point.2 != Known::Bound);
    let path: Vec<String> = joined.map(|(x, y, _)| format!("{x:.1},{y:.1}")).collect();
    put(
        out,
        format_args!(
            "<polyline points=\"{}\" fill=\"none\" {}/>",
            path.join(" "),
            curve.stroke()
        ),
    );
    for (x, y, known) in points {
        curve.mark(out, x, y, known);
    }
}

/// In the lower left corner, which the curves leave free; as wide as its longest name.
fn legend(out: &mut String, curves: &[Curve]) {
    let letters = curves.iter().map(|curve| curve.name.chars().count()).max();
    let width = 70.0 + 8.0 * letters.unwrap_or(0) as f64;
    let height = 22.0 * curves.len() as f64 + 12.0;
    let (left, top) = (LEFT + 12.0, BOTTOM - 12.0 - height);
    put(out, format_args!("<rect x=\"{left}\" y=\"{top}\" width=\"{width}\" height=\"{height}\" fill=\"#ffffff\" stroke=\"#bbbbbb\"/>"));
    for (number, curve) in curves.iter().enumerate() {
        let y = top + 17.0 + 22.0 * number as f64;
        put(
            out,
            format_args!("<path d=\"M{} {y}h34\" {}/>", left + 10.0, curve.stroke()),
        );
        curve.mark(out, left + 27.0, y, Known::Well);
        put(
            out,
            format_args!(
                "<text x=\"{}\" y=\"{}\">{}</text>",
                left + 54.0,
                y + 5.0,
                curve.name
            ),
        );
    }
}

#[cfg(test)]
mod tests {
    use super::*;

    /// A point of many failures is full, one of few hollow, and one of none an arrow that no line leads to.
    #[test]
    fn points_are_marked_by_what_is_known() {
        let mut curve = Curve::measured("any".to_string(), 1);
        for (decibels, failures) in [(3.0, 500), (3.5, FEW), (4.0, FEW - 1), (4.5, 0)] {
            curve.add_counted(decibels, failures, 10_000);
        }
        let drawn = draw("title", &[curve]);
        let seen = |part: &str| drawn.matches(part).count();
        assert_eq!(seen("r=\"3.5\" fill=\"#0072b2\""), 3);
        assert_eq!(seen("r=\"3.5\" fill=\"#ffffff\""), 1);
        assert_eq!(seen("v14m-4 -6"), 1);
        let line = drawn
            .lines()
            .find(|line| line.starts_with("<polyline"))
            .unwrap();
        assert_eq!(line.matches(',').count(), 3);
    }

    /// Two points above the axis and one of rate zero: marks at the two and in the legend.
    #[test]
    fn points_are_marked_by_style() {
        let makers = [Curve::measured, Curve::compared, Curve::computed];
        let drawn = makers.map(|maker| {
            let mut curve = maker("any".to_string(), 1);
            for (decibels, rate) in [(3.0, 0.5), (3.5, 0.01), (4.0, 0.0)] {
                curve.add(decibels, rate);
            }
            draw("title", &[curve])
        });
        let seen = |part: &str| {
            drawn
                .each_ref()
                .map(|drawing| drawing.matches(part).count())
        };
        assert_eq!(seen("<circle"), [3, 3, 0]);
        assert_eq!(seen("r=\"3.5\" fill=\"#ffffff\""), [0, 3, 0]);
        assert_eq!(seen("stroke-dasharray"), [0, 2, 2]);
    }
}
