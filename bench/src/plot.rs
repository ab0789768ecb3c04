//! A plot of the growth as an SVG.
use crate::growth::{Line, Panel};

const WIDTH: f64 = 330.0;
const HEIGHT: f64 = 240.0;
const LEFT: f64 = 60.0;
const TOP: f64 = 40.0;
const APART: f64 = 430.0;
const COLOURS: [&str; 3] = ["#1b6ca8", "#c0561f", "#3a7d44"];

/// A round number not below a value, with how many parts it is marked in.
fn rounded(value: f64) -> (f64, usize) {
    let unit = 10f64.powf(value.log10().floor());
    let tops = [
        (1.0, 5),
        (2.0, 4),
        (4.0, 4),
        (5.0, 5),
        (6.0, 6),
        (8.0, 4),
        (10.0, 5),
    ];
    let (top, parts) = tops
        .into_iter()
        .find(|&(top, _)| top * unit >= value)
        .unwrap_or((10.0, 5));
    (top * unit, parts)
}

/// Where a panel stands, and what its edges mean.
struct Frame<'a> {
    panel: &'a Panel,
    left: f64,
    widest: f64,
    highest: f64,
    parts: usize,
}

impl Frame<'_> {
    fn new(panel: &Panel, left: f64) -> Frame<'_> {
        let (highest, parts) = rounded(panel.points().map(|point| point.time).fold(0.0, f64::max));
        Frame {
            panel,
            left,
            widest: panel.sizes().max().unwrap_or(1) as f64,
            highest,
            parts,
        }
    }

    fn x(&self, size: usize) -> f64 {
        self.left + size as f64 / self.widest * WIDTH
    }

    fn y(&self, time: f64) -> f64 {
        TOP + HEIGHT - time / self.highest * HEIGHT
    }

    /// A line across for each round time.
    fn times(&self) -> String {
        let left = self.left;
        let line = |part: usize| {
            let time = self.highest * part as f64 / self.parts as f64;
            let (at, end) = (self.y(time), left - 6.0);
            let down = at + 4.0;
            format!(
                "<path d=\"M{left} {at:.1}h{WIDTH}\" stroke=\"#ddd\"/>\n\
                 <text x=\"{end}\" y=\"{down:.1}\" text-anchor=\"end\">{time}</text>\n"
            )
        };
        (0..=self.parts).map(line).collect()
    }

    /// The sizes below, and what they count.
    fn sizes(&self) -> String {
        let below = TOP + HEIGHT + 16.0;
        let label = |x: f64, y: f64, what: &str| {
            format!("<text x=\"{x:.1}\" y=\"{y}\" text-anchor=\"middle\">{what}</text>\n")
        };
        let sizes = self.panel.sizes();
        let sizes: String = sizes
            .map(|size| label(self.x(size), below, &size.to_string()))
            .collect();
        sizes + &label(self.left + WIDTH / 2.0, below + 20.0, self.panel.axis)
    }

    fn title(&self) -> String {
        let (left, above) = (self.left, TOP - 16.0);
        format!(
            "<text x=\"{left}\" y=\"{above}\" font-weight=\"bold\">Judge, microseconds</text>\n"
        )
    }

    /// One line with its name and its points.
    fn line(&self, index: usize, line: &Line) -> String {
        let colour = COLOURS[index];
        let at: Vec<(f64, f64)> = line
            .points
            .iter()
            .map(|point| (self.x(point.size), self.y(point.time)))
            .collect();
        let path: Vec<String> = at.iter().map(|(x, y)| format!("{x:.1},{y:.1}")).collect();
        let circle = |&(x, y): &(f64, f64)| {
            format!("<circle cx=\"{x:.1}\" cy=\"{y:.1}\" r=\"2.5\" fill=\"{colour}\"/>\n")
        };
        let circles: String = at.iter().map(circle).collect();
        let (path, name) = (path.join(" "), line.name);
        let (from, down) = (self.left + 12.0, TOP + 16.0 + 18.0 * index as f64);
        format!(
            "<polyline points=\"{path}\" fill=\"none\" stroke=\"{colour}\" stroke-width=\"2\"/>\n{circles}\
             <text x=\"{from}\" y=\"{down}\" fill=\"{colour}\">{name}</text>\n"
        )
    }

    fn svg(&self) -> String {
        let lines = self.panel.lines.iter().enumerate();
        let lines: String = lines.map(|(index, line)| self.line(index, line)).collect();
        self.times() + &self.sizes() + &self.title() + &lines
    }
}

pub fn svg(panels: &[Panel]) -> String {
    let width = APART * panels.len() as f64;
    let height = TOP + HEIGHT + 50.0;
    let panels = panels.iter().enumerate();
    let panels: String = panels
        .map(|(index, panel)| Frame::new(panel, LEFT + APART * index as f64).svg())
        .collect();
    format!(
        "<svg xmlns=\"http://www.w3.org/2000/svg\" viewBox=\"0 0 {width} {height}\" font-family=\"sans-serif\" \
         font-size=\"11\" fill=\"#222\">\n\
         <rect width=\"{width}\" height=\"{height}\" fill=\"white\"/>\n{panels}</svg>\n"
    )
}
