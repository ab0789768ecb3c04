//! The tables as text.
use crate::growth::{Line, Panel};
use crate::process;
use crate::shapes::{self, LEGEND};
use crate::times::{best_of_turns, column, names, Timed, Times, PLAIN};

/// What a model is compared with others by: its ticks, and whether its moves have room as sets.
#[derive(Clone, Copy, PartialEq)]
enum Kind {
    Plain,
    Ticks,
    NoRoom,
}

impl Kind {
    fn of(name: &str, model: &second::Model) -> Kind {
        match model.has_silent() {
            false => Kind::Plain,
            true if shapes::NO_ROOM.contains(&name) => Kind::NoRoom,
            true => Kind::Ticks,
        }
    }
}

/// A model with its times.
struct Measured {
    name: &'static str,
    states: u16,
    steps: usize,
    kind: Kind,
    letters: Result<usize, u16>,
    /// The lines of the roll.
    lines: usize,
    times: Times,
}

/// All models with their times, and the times of both programs on an empty text.
pub struct Report {
    models: Vec<Measured>,
    empty: [f64; 2],
}

pub fn measure() -> Report {
    let measured = |(name, model): (_, second::Model)| {
        let mut timed = Timed::of(&model);
        Measured {
            name,
            states: model.states,
            steps: model.steps.len(),
            kind: Kind::of(name, &model),
            letters: timed.letters,
            lines: lines(&second::roll_program(&model.to_text())),
            times: timed.times(),
        }
    };
    let empty = |program| best_of_turns(|| process::run(program, b""));
    Report {
        models: shapes::shapes().into_iter().map(measured).collect(),
        empty: [process::PROGRAM, process::SECOND].map(empty),
    }
}

fn lines(roll: &[u8]) -> usize {
    roll.iter().filter(|&&byte| byte == b'\n').count()
}

/// A table; the first column stands left, the others right.
pub fn table(head: &[&str], rows: impl IntoIterator<Item = Vec<String>>) -> String {
    let mut text = format!("| {} |\n", head.join(" | "));
    text += &format!("|---|{}\n", "--:|".repeat(head.len() - 1));
    for row in rows {
        text += &format!("| {} |\n", row.join(" | "));
    }
    text
}

/// Three digits, or all that stand before the point.
pub fn digits(value: f64) -> String {
    match value.abs() {
        size if size >= 100.0 => format!("{value:.0}"),
        size if size >= 10.0 => format!("{value:.1}"),
        size if size >= 1.0 => format!("{value:.2}"),
        _ => format!("{value:.3}"),
    }
}

/// A number, or a mark that there is none.
fn if_any(value: Option<f64>) -> String {
    value.map_or("-".to_string(), digits)
}

impl Measured {
    /// Whether this is the time of Word, and of its refusal.
    fn is_refused(&self, index: usize) -> bool {
        index == column("Word") && self.letters.is_err()
    }

    /// A time of ours; Word's is marked where it is the time of a refusal.
    fn ours(&self, index: usize) -> String {
        let mark = if self.is_refused(index) { "*" } else { "" };
        digits(self.times.ours[index]) + mark
    }

    fn row(&self) -> Vec<String> {
        let letters = match self.letters {
            Ok(letters) => letters.to_string(),
            Err(_) => "*".to_string(),
        };
        let mut row = vec![
            self.name.to_string(),
            self.states.to_string(),
            self.steps.to_string(),
            letters,
        ];
        row.extend((0..self.times.ours.len()).map(|index| self.ours(index)));
        row
    }

    /// Our time by the second checker's, none where Word refuses.
    fn ratio(&self, index: usize) -> Option<f64> {
        let Times { ours, second, .. } = &self.times;
        (!self.is_refused(index)).then(|| ours[index] / second[index])
    }

    /// Our time of what plain Rust does too.
    fn ours_beside(&self, index: usize) -> f64 {
        self.times.ours[column(PLAIN[index])]
    }

    /// The time of plain Rust by steps, and ours by it; none where the model has ticks.
    fn plain(&self, index: usize) -> Option<(f64, f64)> {
        let plain = self.times.plain.as_ref()?[index];
        Some((plain, self.ours_beside(index) / plain))
    }

    /// The time of plain Rust over bit sets, and ours by it.
    fn bits(&self, index: usize) -> Option<(f64, f64)> {
        let bits = self.times.bits[index];
        Some((bits, self.ours_beside(index) / bits))
    }

    fn second_row(&self) -> Vec<String> {
        let cell = |index: usize| {
            let second = self.times.second[index];
            format!(
                "{} ({})",
                digits(second),
                digits(self.times.ours[index] / second)
            )
        };
        let mut row = vec![self.name.to_string()];
        row.extend((0..self.times.ours.len()).map(cell));
        row
    }

    /// What Roll takes more than Page.
    fn more(&self) -> f64 {
        self.times.ours[column("Roll")] - self.times.ours[column("Page")]
    }

    fn roll_row(&self) -> Vec<String> {
        let [page, roll] = ["Page", "Roll"].map(|name| self.ours(column(name)));
        let lines = self.lines.to_string();
        let more = digits(self.more());
        vec![self.name.to_string(), lines, page, roll, more]
    }

    fn program(&self) -> f64 {
        self.times.ours[column("program")]
    }

    fn plain_row(&self) -> Vec<String> {
        let cells = |index| {
            let two = [self.plain(index), self.bits(index)].into_iter();
            let two = two.flat_map(|times| [times.map(|both| both.0), times.map(|both| both.1)]);
            [Some(self.ours_beside(index))].into_iter().chain(two)
        };
        let cells = (0..PLAIN.len()).flat_map(cells).map(if_any);
        [self.name.to_string()].into_iter().chain(cells).collect()
    }
}

/// The machine that the times were taken on.
fn machine() -> String {
    let cores = std::thread::available_parallelism().map_or(1, usize::from);
    let machine = std::env::consts::ARCH.replace('_', "-");
    format!("a machine of {cores} cores, {machine}")
}

const COLUMNS: &str = "\
Letters: the length of the word that Word shows. *: there is none, and Word's time is that of its refusal, which is 24
for all alike, which passes, 23 where the model branches, and else 36, since it ticks. The row below fan, on and back,
two states of 400 steps and dense random has a deterministic variant, which is refused with a word. Run goes to a
reachable state as far from the nearest start as any. Print is the way from the text to the page in one call, and tell
is Read, Judge and Word in one; program is `till`: print with its process, from its start to its end.
";

const RATIOS: &str = "\
Our times by those of the second checker (Word's without refusals), and those of Rank, Book and Check by those of plain
Rust and of plain Rust over bit sets, of the models without ticks, of those with ticks, and of the three whose moves
have no room as sets:
";

const SECOND: &str = "\
The second checker is written to be clear and not fast; its program is timed with its process too. Every operation that
takes a store tests within its time that the store is good, and so does the second checker's. Plain Rust is written for
speed and not proved, and takes a good store for granted. It compares states by their moves, and looks again only where
something changed; its book is one call that ranks, too, and like its check it finds a state's steps with an action by
an index. It takes each move for a single step, so that there is none for models with ticks. Plain Rust over bit sets,
where a set of states is the bits of one number, is there for all models: it works out the targets of the moves of each
state and action as one number, ranks by them, and finds the entries of its book in the same rounds. Without ticks its
Rank is another, which shows how fast one can be where each move is a single step. Check is timed on the model's own
book.
";

/// The models that the README shows, and what it calls them.
const SHORT: [(&str, &str); 5] = [
    ("typical", "a typical till"),
    ("typical with ticks", "a till with ticks"),
    ("chain of 128, 8 actions", "the largest chain"),
    ("dense random", "dense, at random"),
    ("greatest roll", "the greatest roll"),
];

/// What the README shows of them.
const SHORT_COLUMNS: [&str; 7] = ["Read", "Judge", "Book", "Check", "Page", "Roll", "program"];

/// A time of plain Rust by the operation's place in `PLAIN`, and ours by it.
type Beside = fn(&Measured, usize) -> Option<(f64, f64)>;

impl Report {
    /// The times of the proved operations and of the program.
    fn ours(&self) -> String {
        let head = [&["model", "states", "steps", "letters"], &names()[..]].concat();
        table(&head, self.models.iter().map(Measured::row))
    }

    /// The models of a kind.
    fn with(&self, kind: Kind) -> impl Iterator<Item = &Measured> {
        let models = self.models.iter();
        models.filter(move |model| model.kind == kind)
    }

    /// The least and the greatest ratios of the models of each kind.
    fn ratios(&self) -> String {
        let row = |name: &str, kind: Kind, choose: fn(f64, f64) -> f64| {
            let over = |index| {
                let ratios = self.with(kind).filter_map(|model| model.ratio(index));
                if_any(ratios.reduce(choose))
            };
            let second = (0..names().len()).map(over);
            let plain = self.beside(Measured::plain, kind, choose);
            let bits = self.beside(Measured::bits, kind, choose);
            let cells = second.chain(plain).chain(bits);
            [name.to_string()].into_iter().chain(cells).collect()
        };
        let to_plain =
            ["plain", "bit sets"].map(|other| PLAIN.map(|name| format!("{name} to {other}")));
        let mut head = [&["ratio"], &names()[..]].concat();
        head.extend(to_plain.iter().flatten().map(String::as_str));
        let rows = [
            row("least", Kind::Plain, f64::min),
            row("greatest", Kind::Plain, f64::max),
            row("least with ticks", Kind::Ticks, f64::min),
            row("greatest with ticks", Kind::Ticks, f64::max),
            row("least without room", Kind::NoRoom, f64::min),
            row("greatest without room", Kind::NoRoom, f64::max),
        ];
        table(&head, rows)
    }

    /// The least or the greatest of our times by those of plain Rust, of the models of a kind, in the order of `PLAIN`.
    fn beside(&self, other: Beside, kind: Kind, choose: fn(f64, f64) -> f64) -> [String; 3] {
        [0, 1, 2].map(|index| {
            let ratios = self.with(kind).filter_map(|model| other(model, index));
            if_any(ratios.map(|both| both.1).reduce(choose))
        })
    }

    fn named(&self, name: &str) -> &Measured {
        let mut models = self.models.iter();
        models.find(|model| model.name == name).expect("a model")
    }

    /// The greatest of some times of all models but those without room.
    fn most(&self, time: fn(&Measured) -> f64) -> f64 {
        let models = self.models.iter();
        let with_room = models.filter(|model| model.kind != Kind::NoRoom);
        with_room.map(time).reduce(f64::max).expect("some model")
    }

    /// What the README shows: a few rows, and what they mean.
    pub fn short(&self) -> String {
        let row = |(name, called): (&str, &str)| {
            let model = self.named(name);
            let sizes = [
                called.to_string(),
                model.states.to_string(),
                model.steps.to_string(),
            ];
            let times = SHORT_COLUMNS.map(|name| model.ours(column(name)));
            [&sizes[..], &times].concat()
        };
        let head = [&["model", "states", "steps"], &SHORT_COLUMNS[..]].concat();
        let times = table(&head, SHORT.map(row));
        let slowest = digits(self.most(Measured::program));
        let more = digits(self.most(Measured::more));
        let [rank, book, check] = self.beside(Measured::plain, Kind::Plain, f64::max);
        let [rank_bits, book_bits, check_bits] = self.beside(Measured::bits, Kind::Plain, f64::max);
        let [rank_ticks, book_ticks, check_ticks] =
            self.beside(Measured::bits, Kind::Ticks, f64::max);
        let [rank_room, book_room, check_room] = [0, 1, 2].map(|index| {
            let models = self.with(Kind::NoRoom);
            let times = models.map(|model| model.ours_beside(index));
            digits(times.reduce(f64::max).expect("some model"))
        });
        let [process, _] = self.empty.map(digits);
        format!(
            "Microseconds, the best of many calls, on {}:\n\n{times}\n\
             The program `till` answers on every model of the benchmark but three within {slowest}; {process} of that \
             go to its\nprocess, as an empty text shows. Roll takes at most {more} more than Page. \
             On models without ticks Rank takes\nat most {rank} times as long as plain Rust that compares states by \
             their moves and is not proved, Book at most {book}\ntimes and Check at most {check} times; they take at \
             most {rank_bits}, {book_bits} and {check_bits} times as long as plain Rust over bit\nsets. \
             On models with ticks Rank takes at most {rank_ticks} times as long as plain Rust over bit sets, \
             Book at most\n{book_ticks} times and Check at most {check_ticks} times. The three left out have more \
             different moves than there is room\nfor as sets, and are ranked otherwise: Rank takes up to {rank_room} \
             there, Book {book_room} and Check {check_room}.\n\
             `bench/TABLE.md` has every model and operation, and beside them the times of the second checker \
             and of plain Rust.\n",
            machine()
        )
    }

    /// All tables but the growth.
    pub fn whole(&self) -> String {
        let head = [&["model"], &names()[..]].concat();
        let second = table(&head, self.models.iter().map(Measured::second_row));
        let plain_head = PLAIN.map(|name| [name, "plain", "ratio", "bit sets", "ratio"]);
        let head = [&["model"], &plain_head.concat()[..]].concat();
        let plain = table(&head, self.models.iter().map(Measured::plain_row));
        let head = ["model", "lines of the roll", "Page", "Roll", "Roll - Page"];
        let rolls = table(&head, self.models.iter().map(Measured::roll_row));
        let more = digits(self.most(Measured::more));
        let [program, second_program] = self.empty.map(digits);
        let how = format!(
            "Microseconds, the best of many calls, all in one run, on {}. No list is cleared\n\
             between calls: each call fills its lists over what the call before it left.\n",
            machine()
        );
        let (ours, ratios) = (self.ours(), self.ratios());
        let parts = [&how, &ours, LEGEND, COLUMNS, RATIOS, &ratios, SECOND].join("\n");
        format!(
            "# Times\n\nMade by `bash bench/run --write`.\n\n{parts}\n\
             A process alone: on an empty text the program takes {program}, the second checker's {second_program}.\n\n\
             ## The second checker (in brackets: our time by its time)\n\n{second}\n\
             ## Roll beside Page\n\n\
             What Roll takes more than Page is to stay below 100. On all models with room it is at most {more}.\n\n{rolls}\n\
             ## Rank, Book and Check beside plain Rust\n\n{plain}\n"
        )
    }
}

/// How Judge's time grows.
pub fn growth(panels: &[Panel]) -> String {
    let mut text = String::from(
        "## How Judge's time grows\n\n![Judge's time by states and by steps](growth.svg)\n\n\
         Each random model takes a number of rounds of its own, so its times do not rise evenly.\n",
    );
    for panel in panels {
        text += &format!("\n{}", growth_table(panel));
    }
    text
}

fn growth_table(panel: &Panel) -> String {
    let first = format!("by {}", panel.axis);
    let sizes: Vec<String> = panel.sizes().map(|size| size.to_string()).collect();
    let head: Vec<&str> = [first.as_str()]
        .into_iter()
        .chain(sizes.iter().map(String::as_str))
        .collect();
    let row = |line: &Line| {
        let times = line.points.iter().map(|point| digits(point.time));
        [line.name.to_string()].into_iter().chain(times).collect()
    };
    table(&head, panel.lines.iter().map(row))
}
