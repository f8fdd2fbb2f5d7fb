//! The plot: time of an answer against entries, as a picture that holds its own text.

use crate::axis::Axis;
use crate::figures::{grouped, time};
use crate::measure::Row;
use crate::timing::Timed;

const WIDTH: f64 = 760.0;
const HEIGHT: f64 = 500.0;

/// The edges of the field that the axes bound.
const LEFT: f64 = 92.0;
const RIGHT: f64 = 736.0;
const TOP: f64 = 46.0;
const BOTTOM: f64 = 436.0;

/// One line of the plot.
struct Line {
    name: &'static str,
    colour: &'static str,
    dash: &'static str,
    marker: fn(f64, f64, &str) -> String,
    of: fn(&Row) -> &Timed,
}

const LINES: [Line; 3] = [
    Line {
        name: "second implementation, digit by digit",
        colour: "#a8321f",
        dash: "2 5",
        marker: triangle,
        of: |row| &row.second,
    },
    Line {
        name: "engine",
        colour: "#000000",
        dash: "none",
        marker: disc,
        of: |row| &row.engine,
    },
    Line {
        name: "hand-optimised version",
        colour: "#1f5c99",
        dash: "9 5",
        marker: square,
        of: |row| &row.hand,
    },
];

fn disc(x: f64, y: f64, colour: &str) -> String {
    format!("<circle cx=\"{x:.1}\" cy=\"{y:.1}\" r=\"4.5\" fill=\"{colour}\"/>")
}

fn square(x: f64, y: f64, colour: &str) -> String {
    let (x, y) = (x - 4.0, y - 4.0);
    format!(
        "<rect x=\"{x:.1}\" y=\"{y:.1}\" width=\"8\" height=\"8\" fill=\"#ffffff\" stroke=\"{colour}\" stroke-width=\"1.8\"/>"
    )
}

fn triangle(x: f64, y: f64, colour: &str) -> String {
    let (left, right, top, bottom) = (x - 5.0, x + 5.0, y - 5.5, y + 3.5);
    format!("<path d=\"M{left:.1} {bottom:.1}H{right:.1}L{x:.1} {top:.1}Z\" fill=\"{colour}\"/>")
}

/// The plot of answers for words of so many letters: of those alone, since words of fewer letters have fewer own coordinates.
pub fn svg(rows: &[Row], letters: usize) -> String {
    let rows: Vec<&Row> = rows.iter().filter(|row| row.words.h == letters).collect();
    let entries = rows.iter().map(|row| row.words.count() as f64);
    let times = rows
        .iter()
        .flat_map(|row| LINES.map(|line| (line.of)(row).best));
    let across = Axis::over(entries, LEFT, RIGHT);
    let up = Axis::over(times, BOTTOM, TOP);
    let lines = LINES.iter().map(|line| drawn(line, &rows, &across, &up));
    let body = [
        head(&rows, letters),
        grid(&across, &up),
        lines.collect(),
        legend(),
    ];
    format!("{}</svg>\n", body.concat())
}

fn head(rows: &[&Row], letters: usize) -> String {
    let title = format!("Time of an answer against entries, words of {letters} letters");
    let mut text = format!(
        "<svg xmlns=\"http://www.w3.org/2000/svg\" viewBox=\"0 0 {WIDTH} {HEIGHT}\" role=\"img\" font-family=\"sans-serif\" \
         font-size=\"13\" fill=\"#111111\">\n<title>{title}</title>\n"
    );
    if let (Some(first), Some(last)) = (rows.first(), rows.last()) {
        text += &format!(
            "<desc>Both axes are logarithmic. From {} to {} entries, none of them 0, an answer grows from {} to {} for the \
             engine, from {} to {} for the hand-optimised version, and from {} to {} for the second implementation.</desc>\n",
            grouped(first.words.count()),
            grouped(last.words.count()),
            time(first.engine.best),
            time(last.engine.best),
            time(first.hand.best),
            time(last.hand.best),
            time(first.second.best),
            time(last.second.best),
        );
    }
    text += &format!("<rect width=\"{WIDTH}\" height=\"{HEIGHT}\" fill=\"#ffffff\"/>\n");
    text += &format!(
        "<text x=\"{LEFT}\" y=\"28\" font-size=\"16\" font-weight=\"bold\">{title}</text>\n"
    );
    text
}

/// The axes, with a line and a label at each power of ten.
fn grid(across: &Axis, up: &Axis) -> String {
    let mut text = String::from("<g stroke=\"#d4d4d4\" stroke-width=\"1\">\n");
    for x in across.powers().map(|power| across.place(power)) {
        text += &format!("<path d=\"M{x:.1} {TOP}V{BOTTOM}\"/>\n");
    }
    for y in up.powers().map(|power| up.place(power)) {
        text += &format!("<path d=\"M{LEFT} {y:.1}H{RIGHT}\"/>\n");
    }
    text += "</g>\n<g text-anchor=\"middle\">\n";
    for power in across.powers() {
        let (x, y) = (across.place(power), BOTTOM + 20.0);
        text += &format!(
            "<text x=\"{x:.1}\" y=\"{y}\">{}</text>\n",
            grouped(power.round() as usize)
        );
    }
    text += "</g>\n<g text-anchor=\"end\">\n";
    for power in up.powers() {
        let (x, y) = (LEFT - 8.0, up.place(power) + 4.5);
        text += &format!("<text x=\"{x}\" y=\"{y:.1}\">{}</text>\n", unit(power));
    }
    text += "</g>\n";
    text += &format!(
        "<path d=\"M{LEFT} {TOP}V{BOTTOM}H{RIGHT}\" fill=\"none\" stroke=\"#111111\" stroke-width=\"1.5\"/>\n"
    );
    text + &names()
}

/// What the axes count.
fn names() -> String {
    let (middle, below) = ((LEFT + RIGHT) / 2.0, BOTTOM + 46.0);
    let height = (TOP + BOTTOM) / 2.0;
    format!(
        "<text x=\"{middle}\" y=\"{below}\" text-anchor=\"middle\">entries of the table (number, logarithmic)</text>\n\
         <text transform=\"translate(22 {height}) rotate(-90)\" text-anchor=\"middle\">time of an answer (logarithmic)</text>\n"
    )
}

/// A power of ten of a second, with its unit.
fn unit(seconds: f64) -> String {
    let power = seconds.log10().round() as i32;
    let unit = match power {
        ..=-7 => "ns",
        -6..=-4 => "µs",
        -3..=-1 => "ms",
        _ => "s",
    };
    let below = match power {
        ..=-7 => -9,
        -6..=-4 => -6,
        -3..=-1 => -3,
        _ => 0,
    };
    format!("{} {unit}", 10f64.powi(power - below).round())
}

fn drawn(line: &Line, rows: &[&Row], across: &Axis, up: &Axis) -> String {
    let points: Vec<_> = rows
        .iter()
        .map(|row| {
            (
                across.place(row.words.count() as f64),
                up.place((line.of)(row).best),
            )
        })
        .collect();
    let path: Vec<_> = points
        .iter()
        .map(|(x, y)| format!("{x:.1},{y:.1}"))
        .collect();
    let markers: Vec<_> = points
        .iter()
        .map(|(x, y)| (line.marker)(*x, *y, line.colour))
        .collect();
    format!(
        "{}\n{}\n",
        stroke(line, &path.join(" ")),
        markers.join("\n")
    )
}

fn stroke(Line { colour, dash, .. }: &Line, points: &str) -> String {
    format!(
        "<polyline points=\"{points}\" fill=\"none\" stroke=\"{colour}\" stroke-width=\"2\" stroke-dasharray=\"{dash}\"/>"
    )
}

/// The names of the lines, at the upper left, where no line goes.
fn legend() -> String {
    let mut text = format!(
        "<rect x=\"{}\" y=\"{}\" width=\"316\" height=\"80\" fill=\"#ffffff\" stroke=\"#d4d4d4\"/>\n",
        LEFT + 12.0,
        TOP + 8.0
    );
    for (i, line) in LINES.iter().enumerate() {
        let y = TOP + 24.0 + 24.0 * i as f64;
        let (from, to) = (LEFT + 22.0, LEFT + 70.0);
        text += &stroke(line, &format!("{from},{y} {to},{y}"));
        text += &(line.marker)((from + to) / 2.0, y, line.colour);
        text += &format!(
            "\n<text x=\"{}\" y=\"{}\">{}</text>\n",
            to + 10.0,
            y + 4.5,
            line.name
        );
    }
    text
}

#[cfg(test)]
mod tests {
    use super::*;

    #[test]
    fn powers_of_ten_have_units() {
        assert_eq!(unit(1e-8), "10 ns");
        assert_eq!(unit(1e-6), "1 µs");
        assert_eq!(unit(0.1), "100 ms");
        assert_eq!(unit(10.0), "10 s");
    }
}
