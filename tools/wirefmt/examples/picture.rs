//! Draws what a terminal was sent (standard input, with colours as `wirefmt --diff` sets them) as an SVG.

use std::io::{self, Read};

const WIDTH: usize = 9;
const HEIGHT: usize = 20;
const MARGIN: usize = 16;

/// The attributes of a text after the SGR sequence with these parameters.
fn style(parameters: &str) -> &'static str {
    match parameters {
        "1" => " font-weight=\"bold\"",
        "31" => " fill=\"#ff7b72\"",
        "32" => " fill=\"#7ee787\"",
        "36" => " fill=\"#79c0ff\"",
        _ => "",
    }
}

fn escaped(text: &str) -> String {
    text.replace('&', "&amp;").replace('<', "&lt;")
}

/// A line, its parts each with the style that stands before it.
fn line(number: usize, line: &str) -> String {
    let y = MARGIN + HEIGHT * number + HEIGHT * 3 / 4;
    let mut parts = line.split("\x1b[");
    let mut drawn = escaped(parts.next().unwrap_or_default());
    for part in parts {
        let (parameters, text) = part.split_once('m').unwrap_or(("", part));
        let (style, text) = (style(parameters), escaped(text));
        drawn.extend(["<tspan", style, ">", &text, "</tspan>"]);
    }
    format!("<text x=\"{MARGIN}\" y=\"{y}\" xml:space=\"preserve\">{drawn}</text>\n")
}

/// How many columns a line takes.
fn columns(line: &str) -> usize {
    let mut parts = line.split("\x1b[");
    let first = parts.next().unwrap_or_default().chars().count();
    let shown = parts.filter_map(|part| part.split_once('m'));
    first + shown.map(|(_, text)| text.chars().count()).sum::<usize>()
}

fn main() -> io::Result<()> {
    let mut sent = String::new();
    io::stdin().read_to_string(&mut sent)?;
    let lines: Vec<&str> = sent.lines().collect();
    let widest = lines.iter().map(|line| columns(line)).max().unwrap_or(0);
    let (width, height) = (
        2 * MARGIN + WIDTH * widest,
        2 * MARGIN + HEIGHT * lines.len(),
    );
    println!("<svg xmlns=\"http://www.w3.org/2000/svg\" width=\"{width}\" height=\"{height}\">");
    println!("<rect width=\"100%\" height=\"100%\" rx=\"6\" fill=\"#0d1117\"/>");
    println!("<g font-family=\"monospace\" font-size=\"15\" fill=\"#e6edf3\">");
    for (number, text) in lines.iter().enumerate() {
        print!("{}", line(number, text));
    }
    println!("</g>\n</svg>");
    Ok(())
}
