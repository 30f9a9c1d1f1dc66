//! The plot of `bench`: the speeds of both sides as pairs of bars, an SVG document.

/// The speeds on one input, in MB/s.
pub struct Pair {
    pub name: &'static str,
    pub rust: Option<f64>,
    pub ours: f64,
}

const RUST: (&str, &str) = ("the Rust", "#d9883b");
const OURS: (&str, &str) = ("ours", "#2c6fae");

// pixels: the bars begin at LEFT, and each pair has a ROW of its own
const WIDTH: f64 = 960.0;
const LEFT: f64 = 200.0;
const RIGHT: f64 = 60.0;
const TOP: f64 = 92.0;
const BOTTOM: f64 = 50.0;
const ROW: f64 = 30.0;
const BAR: f64 = 12.0;

/// A logarithmic axis over whole powers of ten.
struct Axis {
    low: i32,
    high: i32,
}

impl Axis {
    /// The shortest that holds all speeds.
    fn of(pairs: &[Pair]) -> Self {
        let speeds = pairs
            .iter()
            .flat_map(|pair| pair.rust.into_iter().chain([pair.ours]));
        let powers: Vec<f64> = speeds.map(f64::log10).collect();
        let low = powers.iter().copied().fold(f64::INFINITY, f64::min);
        let high = powers.iter().copied().fold(f64::NEG_INFINITY, f64::max);
        let low = low.floor() as i32;
        Self {
            low,
            high: (high.ceil() as i32).max(low + 1),
        }
    }

    /// Where a speed stands.
    fn x(&self, speed: f64) -> f64 {
        let part = (speed.log10() - f64::from(self.low)) / f64::from(self.high - self.low);
        LEFT + part * (WIDTH - LEFT - RIGHT)
    }
}

/// A text with its characters as SVG wants them.
fn escaped(text: &str) -> String {
    text.replace('&', "&amp;")
        .replace('<', "&lt;")
        .replace('>', "&gt;")
}

fn text(x: f64, y: f64, (anchor, size): (&str, u32), text: &str) -> String {
    let text = escaped(text);
    format!(
        "<text x=\"{x:.1}\" y=\"{y:.1}\" text-anchor=\"{anchor}\" font-size=\"{size}\">{text}</text>\n"
    )
}

fn block(x: f64, y: f64, width: f64, colour: &str) -> String {
    format!(
        "<rect x=\"{x:.1}\" y=\"{y:.1}\" width=\"{width:.1}\" height=\"{BAR}\" fill=\"{colour}\"/>\n"
    )
}

/// A line of the grid.
fn rule(axis: &Axis, bottom: f64, speed: f64, colour: &str) -> String {
    let x = axis.x(speed);
    let ends = format!("x1=\"{x:.1}\" x2=\"{x:.1}\" y1=\"{TOP}\" y2=\"{bottom}\"");
    format!("<line {ends} stroke=\"{colour}\"/>\n")
}

/// The line of a power of ten with its number at both ends, and paler lines up to the next power.
fn power(axis: &Axis, bottom: f64, power: i32) -> String {
    let whole = 10_f64.powi(power);
    let steps = if power < axis.high { 2..10 } else { 0..0 };
    let paler = steps.map(|step| rule(axis, bottom, whole * f64::from(step), "#e6e6e6"));
    let number = |y| text(axis.x(whole), y, ("middle", 12), &whole.to_string());
    paler.collect::<String>()
        + &rule(axis, bottom, whole, "#9a9a9a")
        + &[TOP - 6.0, bottom + 16.0].map(number).concat()
}

/// A speed with about three figures.
fn figures(speed: f64) -> String {
    match speed {
        s if s < 1.0 => format!("{s:.2}"),
        s if s < 10.0 => format!("{s:.1}"),
        s => format!("{s:.0}"),
    }
}

/// A note beside a bar; a margin keeps the grid off it.
fn note(x: f64, y: f64, words: &str) -> String {
    let margin = "paint-order=\"stroke\" stroke=\"#ffffff\" stroke-width=\"3\"";
    let words = text(x + 4.0, y + BAR - 2.0, ("start", 11), words);
    format!("<g {margin}>{}</g>\n", words.trim_end())
}

/// A bar from the axis' beginning with its speed behind it; a side that wasn't run has none.
fn bar(axis: &Axis, y: f64, colour: &str, speed: Option<f64>) -> String {
    let Some(speed) = speed else {
        return note(LEFT, y, "not run");
    };
    let end = axis.x(speed);
    block(LEFT, y, end - LEFT, colour) + &note(end, y, &figures(speed))
}

/// An input's name and its bars.
fn pair(axis: &Axis, y: f64, pair: &Pair) -> String {
    let first = y + (ROW - 2.0 * BAR) / 2.0;
    text(LEFT - 8.0, y + ROW / 2.0 + 4.0, ("end", 13), pair.name)
        + &bar(axis, first, RUST.1, pair.rust)
        + &bar(axis, first + BAR, OURS.1, Some(pair.ours))
}

fn legend() -> String {
    let entry = |x: f64, (name, colour): (&str, &str)| {
        block(x, 46.0, 24.0, colour) + &text(x + 30.0, 56.0, ("start", 13), name)
    };
    entry(LEFT, RUST) + &entry(LEFT + 130.0, OURS)
}

/// The plot, one pair of bars below the other; none without pairs.
pub fn svg(title: &str, pairs: &[Pair]) -> Option<String> {
    if pairs.is_empty() {
        return None;
    }
    let axis = Axis::of(pairs);
    let bottom = TOP + ROW * pairs.len() as f64;
    let (height, middle) = (bottom + BOTTOM, f64::midpoint(LEFT, WIDTH - RIGHT));
    let frame = format!("width=\"{WIDTH}\" height=\"{height}\" viewBox=\"0 0 {WIDTH} {height}\"");
    let mut drawn = format!(
        "<svg xmlns=\"http://www.w3.org/2000/svg\" {frame} font-family=\"sans-serif\" fill=\"#222222\">\n\
         <rect width=\"{WIDTH}\" height=\"{height}\" fill=\"#ffffff\"/>\n"
    );
    drawn += &text(LEFT, 28.0, ("start", 18), title);
    drawn += &legend();
    let powers = axis.low..=axis.high;
    drawn.extend(powers.map(|each| power(&axis, bottom, each)));
    for (place, each) in pairs.iter().enumerate() {
        drawn += &pair(&axis, TOP + ROW * place as f64, each);
    }
    drawn += &text(
        middle,
        bottom + 38.0,
        ("middle", 13),
        "MB/s of source, logarithmic",
    );
    Some(drawn + "</svg>\n")
}

#[cfg(test)]
mod tests {
    use super::*;

    const PAIRS: [Pair; 2] = [
        Pair {
            name: "a < b & c",
            rust: Some(0.5),
            ours: 50.0,
        },
        Pair {
            name: "d",
            rust: None,
            ours: 500.0,
        },
    ];

    #[test]
    fn tenfold_is_one_power() {
        let axis = Axis::of(&PAIRS);
        assert_eq!((axis.low, axis.high), (-1, 3));
        let power = (WIDTH - LEFT - RIGHT) / 4.0;
        assert!((axis.x(500.0) - axis.x(50.0) - power).abs() < 1e-6);
        assert!((axis.x(0.1) - LEFT).abs() < 1e-6);
    }

    #[test]
    fn every_side_that_ran_has_a_bar() {
        let drawn = svg("title", &PAIRS).expect("pairs");
        // one more of each in the legend
        assert_eq!(drawn.matches(RUST.1).count(), 2);
        assert_eq!(drawn.matches(OURS.1).count(), 3);
        assert_eq!(drawn.matches(">not run<").count(), 1);
        assert!(drawn.contains(">a &lt; b &amp; c</text>"));
        assert!(svg("title", &[]).is_none());
    }
}
