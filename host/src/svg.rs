//! The plot of the residuals on the sky, as SVG: a line for each star, coloured by pier side.

use crate::belongs::Fitted;
use crate::number::shown;
use crate::residuals::{rms, Residual};
use crate::run::Pier;

const WIDTH: f64 = 960.0;
const HEIGHT: f64 = 620.0;
const LEFT: f64 = 80.0;
const RIGHT: f64 = 720.0;
const TOP: f64 = 50.0;
const BOTTOM: f64 = 550.0;
/// The longest line, and the room for it between frame and stars.
const LONGEST: f64 = 60.0;
const ROOM: f64 = 68.0;

/// Where an axis begins and ends, and its steps.
#[derive(Debug, Clone, Copy, PartialEq)]
struct Axis {
    low: f64,
    high: f64,
    step: f64,
}

impl Axis {
    /// Round limits around the values, with at most twelve steps of one of the sizes.
    fn around(values: impl Iterator<Item = f64>, sizes: &[f64]) -> Self {
        let (low, high) = values
            .filter(|x| x.is_finite())
            .fold((f64::INFINITY, f64::NEG_INFINITY), |(low, high), x| {
                (low.min(x), high.max(x))
            });
        let (low, high) = if low <= high { (low, high) } else { (0.0, 0.0) };
        let limits = |step: f64| Self {
            low: (low / step).floor() * step,
            high: ((high / step).floor() + 1.0) * step,
            step,
        };
        let fits = sizes
            .iter()
            .map(|&s| limits(s))
            .find(|a| (a.high - a.low) / a.step <= 12.0);
        fits.unwrap_or_else(|| limits(sizes[sizes.len() - 1]))
    }

    /// The steps that lie within a limit either way.
    fn ticks(&self, limit: f64) -> Vec<f64> {
        let count = ((self.high - self.low) / self.step).round() as usize;
        let places = (0..=count).map(|i| self.low + i as f64 * self.step);
        places.filter(|x| x.abs() <= limit).collect()
    }

    /// The place of a value between two ends of the picture.
    fn place(&self, value: f64, from: f64, to: f64) -> f64 {
        from + (value - self.low) / (self.high - self.low) * (to - from)
    }
}

/// The axes, and pixels for an arcsecond.
struct Plot {
    hours: Axis,
    degrees: Axis,
    longest: f64,
}

impl Plot {
    fn of(residuals: &[Residual]) -> Self {
        let lengths = residuals
            .iter()
            .map(Residual::length)
            .filter(|x| x.is_finite());
        Self {
            hours: Axis::around(
                residuals.iter().map(|r| r.hour_angle),
                &[0.5, 1.0, 2.0, 3.0],
            ),
            degrees: Axis::around(
                residuals.iter().map(|r| r.declination),
                &[5.0, 10.0, 15.0, 30.0, 45.0],
            ),
            longest: lengths.fold(0.0, f64::max),
        }
    }

    fn x(&self, hours: f64) -> f64 {
        self.hours.place(hours, LEFT + ROOM, RIGHT - ROOM)
    }

    fn y(&self, degrees: f64) -> f64 {
        self.degrees.place(degrees, BOTTOM - ROOM, TOP + ROOM)
    }

    fn scale(&self) -> f64 {
        if self.longest > 0.0 {
            LONGEST / self.longest
        } else {
            0.0
        }
    }
}

/// The whole picture; `file` is the name of the PMF file.
pub fn svg(file: &str, fitted: &Fitted) -> String {
    let plot = Plot::of(&fitted.residuals);
    let mut out = format!(
        "<svg xmlns=\"http://www.w3.org/2000/svg\" width=\"{WIDTH}\" height=\"{HEIGHT}\" viewBox=\"0 0 {WIDTH} {HEIGHT}\" \
         font-family=\"sans-serif\" font-size=\"13\">\n<rect width=\"{WIDTH}\" height=\"{HEIGHT}\" fill=\"white\"/>\n"
    );
    out += &text(
        (LEFT + RIGHT) / 2.0,
        30.0,
        "middle",
        &format!("Residuals on the sky: {file}"),
    );
    axes(&mut out, &plot);
    for residual in &fitted.residuals {
        star(&mut out, &plot, residual);
    }
    let below = legend(&mut out, fitted);
    scale_bar(&mut out, &plot, below + 40.0);
    out + "</svg>\n"
}

fn escaped(text: &str) -> String {
    text.replace('&', "&amp;")
        .replace('<', "&lt;")
        .replace('>', "&gt;")
}

fn text(x: f64, y: f64, anchor: &str, words: &str) -> String {
    let words = escaped(words);
    format!("<text x=\"{x:.1}\" y=\"{y:.1}\" text-anchor=\"{anchor}\">{words}</text>\n")
}

fn line(from: (f64, f64), to: (f64, f64), colour: &str, width: f64) -> String {
    format!(
        "<line x1=\"{:.1}\" y1=\"{:.1}\" x2=\"{:.1}\" y2=\"{:.1}\" stroke=\"{colour}\" stroke-width=\"{width}\"/>\n",
        from.0, from.1, to.0, to.1
    )
}

fn axes(out: &mut String, plot: &Plot) {
    *out += &format!(
        "<rect x=\"{LEFT}\" y=\"{TOP}\" width=\"{}\" height=\"{}\" fill=\"none\" stroke=\"black\"/>\n",
        RIGHT - LEFT,
        BOTTOM - TOP
    );
    for hours in plot.hours.ticks(12.0) {
        let x = plot.x(hours);
        *out += &line((x, BOTTOM), (x, TOP), "#dddddd", 0.5);
        *out += &line((x, BOTTOM), (x, BOTTOM + 6.0), "black", 1.0);
        *out += &text(x, BOTTOM + 22.0, "middle", &format!("{hours}"));
    }
    for degrees in plot.degrees.ticks(90.0) {
        let y = plot.y(degrees);
        *out += &line((LEFT, y), (RIGHT, y), "#dddddd", 0.5);
        *out += &line((LEFT - 6.0, y), (LEFT, y), "black", 1.0);
        *out += &text(LEFT - 10.0, y + 4.5, "end", &format!("{degrees}"));
    }
    *out += &text(
        (LEFT + RIGHT) / 2.0,
        BOTTOM + 46.0,
        "middle",
        "hour angle in hours, west of the meridian to the right",
    );
    let (x, y) = (24.0, (TOP + BOTTOM) / 2.0);
    *out += &format!(
        "<text x=\"{x}\" y=\"{y}\" text-anchor=\"middle\" transform=\"rotate(-90 {x} {y})\">declination in degrees</text>\n"
    );
}

fn colour(pier: Pier) -> &'static str {
    match pier {
        Pier::East => "#0072b2",
        Pier::West => "#d55e00",
        Pier::Unknown => "#666666",
    }
}

/// A disc for East, a square for West, a diamond for unknown.
fn mark(x: f64, y: f64, pier: Pier) -> String {
    let colour = colour(pier);
    match pier {
        Pier::East => format!("<circle cx=\"{x:.1}\" cy=\"{y:.1}\" r=\"3\" fill=\"{colour}\"/>\n"),
        Pier::West => format!(
            "<rect x=\"{:.1}\" y=\"{:.1}\" width=\"5.6\" height=\"5.6\" fill=\"{colour}\"/>\n",
            x - 2.8,
            y - 2.8
        ),
        Pier::Unknown => format!(
            "<path d=\"M{x:.1} {:.1} l4 4 l-4 4 l-4 -4 z\" fill=\"{colour}\"/>\n",
            y - 4.0
        ),
    }
}

fn star(out: &mut String, plot: &Plot, r: &Residual) {
    let (x, y) = (plot.x(r.hour_angle), plot.y(r.declination));
    if r.length().is_finite() {
        let tip = (x + r.dx * plot.scale(), y - r.dd * plot.scale());
        *out += &line((x, y), tip, colour(r.pier), 1.6);
    }
    *out += &mark(x, y, r.pier);
}

/// Returns how far down it goes.
fn legend(out: &mut String, fitted: &Fitted) -> f64 {
    let x = RIGHT + 24.0;
    let mut y = TOP + 12.0;
    *out += &text(x, y, "start", "Pier side");
    for pier in Pier::ALL {
        let of_side = || fitted.residuals.iter().filter(move |r| r.pier == pier);
        let count = of_side().count();
        if count > 0 {
            y += 24.0;
            *out += &mark(x + 6.0, y - 4.5, pier);
            let words = format!("{}: {count}, RMS {}\"", pier.word(), shown(rms(of_side())));
            *out += &text(x + 18.0, y, "start", &words);
        }
    }
    y += 36.0;
    *out += &text(
        x,
        y,
        "start",
        &format!("Sky RMS {}\"", shown(fitted.fit.sky_rms)),
    );
    for words in [
        "A line leads from each",
        "star to where it was",
        "observed, less the model.",
    ] {
        y += 20.0;
        *out += &text(x, y, "start", words);
    }
    y
}

/// The largest of 1, 2, 5, 10, .. that is not above x.
fn round_below(x: f64) -> f64 {
    let power = 10f64.powf(x.log10().floor());
    let steps = [5.0, 2.0, 1.0].map(|step| step * power);
    steps.into_iter().find(|&step| step <= x).unwrap_or(power)
}

/// A number of one digit that is not zero.
fn round_shown(x: f64) -> String {
    let short = format!("{x:.0e}");
    match short.parse::<f64>() {
        Ok(x) if (1e-3..1e6).contains(&x) => x.to_string(),
        _ => short,
    }
}

fn scale_bar(out: &mut String, plot: &Plot, y: f64) {
    let x = RIGHT + 24.0;
    if plot.scale() <= 0.0 {
        *out += &text(x, y, "start", "All residuals are 0.");
        return;
    }
    let size = round_below(plot.longest);
    let end = x + size * plot.scale();
    *out += &line((x, y), (end, y), "black", 2.0);
    *out += &line((x, y - 5.0), (x, y + 5.0), "black", 2.0);
    *out += &line((end, y - 5.0), (end, y + 5.0), "black", 2.0);
    *out += &text(
        end + 10.0,
        y + 4.5,
        "start",
        &format!("{}\" on the sky", round_shown(size)),
    );
}

#[cfg(test)]
mod tests {
    use super::*;

    #[test]
    fn axes_hold_their_values() {
        let axis = Axis::around([-3.2, 4.0].into_iter(), &[0.5, 2.0, 3.0]);
        assert_eq!(
            axis,
            Axis {
                low: -4.0,
                high: 6.0,
                step: 2.0
            }
        );
        assert_eq!(axis.ticks(12.0), [-4.0, -2.0, 0.0, 2.0, 4.0, 6.0]);
        let point = Axis::around([0.0].into_iter(), &[0.5]);
        assert_eq!(
            point,
            Axis {
                low: 0.0,
                high: 0.5,
                step: 0.5
            }
        );
        assert_eq!(Axis::around([].into_iter(), &[5.0]).high, 5.0);
    }

    #[test]
    fn bars_are_round() {
        for (x, bar) in [
            (1.0, 1.0),
            (4.99, 2.0),
            (7.0, 5.0),
            (130.0, 100.0),
            (0.03, 0.02),
        ] {
            assert!((round_below(x) - bar).abs() < 1e-12 * bar, "{x}");
        }
    }

    #[test]
    fn bars_are_shown() {
        assert_eq!(round_shown(200.0), "200");
        assert_eq!(round_shown(0.02), "0.02");
        assert_eq!(round_shown(2e-14), "2e-14");
    }

    #[test]
    fn names_are_escaped() {
        assert!(text(0.0, 0.0, "start", "a<b&c>").contains("a&lt;b&amp;c&gt;"));
    }
}
