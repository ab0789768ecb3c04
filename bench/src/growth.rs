//! How Judge's time grows with the states and with the steps.
use crate::shapes;
use crate::times::{Timed, TURNS};
use second::Model;

/// The best time of one size.
pub struct Point {
    pub size: usize,
    pub time: f64,
    timed: Timed,
}

/// The times of one kind of model, by size.
pub struct Line {
    pub name: &'static str,
    pub points: Vec<Point>,
}

/// Kinds of models with the same sizes.
pub struct Panel {
    pub axis: &'static str,
    pub lines: Vec<Line>,
}

impl Panel {
    pub fn sizes(&self) -> impl Iterator<Item = usize> + '_ {
        self.lines[0].points.iter().map(|point| point.size)
    }

    pub fn points(&self) -> impl Iterator<Item = &Point> {
        self.lines.iter().flat_map(|line| &line.points)
    }
}

/// A kind of model, not yet timed.
fn line(name: &'static str, sizes: &[usize], model: impl Fn(usize) -> Model) -> Line {
    let point = |&size: &usize| Point {
        size,
        time: f64::MAX,
        timed: Timed::of(&model(size)),
    };
    Line {
        name,
        points: sizes.iter().map(point).collect(),
    }
}

fn by_states() -> Panel {
    let sizes = [8, 16, 32, 48, 64, 80, 96, 112, 128];
    Panel {
        axis: "states",
        lines: vec![
            line("chain, 8 parallel actions", &sizes, |n| {
                shapes::chain(n as u16, 8)
            }),
            line("chain, 1 action", &sizes, |n| shapes::chain(n as u16, 1)),
            line("random, 8 steps a state", &sizes, |n| {
                shapes::dense(n, 8 * n - 1)
            }),
        ],
    }
}

fn by_steps() -> Panel {
    let sizes = [128, 255, 382, 509, 636, 763, 890, 1_017];
    Panel {
        axis: "steps, 128 states",
        lines: vec![
            line("chain, parallel actions", &sizes, |n| {
                shapes::chain(128, (n / 127) as u16)
            }),
            line("random", &sizes, |n| shapes::dense(128, n - 1)),
        ],
    }
}

pub fn panels() -> [Panel; 2] {
    let mut panels = [by_states(), by_steps()];
    for _ in 0..TURNS {
        let lines = panels.iter_mut().flat_map(|panel| &mut panel.lines);
        let points = lines.flat_map(|line| &mut line.points);
        points.for_each(|point| point.time = point.time.min(point.timed.judge()));
    }
    panels
}
