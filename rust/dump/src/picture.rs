//! The picture of a board as SVG: a map of the module on which the copy that
//! counts is filled, the other copy of the same level hatched, the rest blank.
//!
//! Levels stand left and spares right, in address order, a row each; every
//! frame is a cell. Elements have classes and data attributes, by which
//! programs find them.

use crate::board::{Board, Level};

/// Where the pairs stand in an image (2.2).
const PAIRS_AT: usize = 0x100;
/// White space around everything.
const MARGIN: usize = 20;
/// The lowest line of the head, and from one line of the legend to the next.
const HEAD: usize = 100;
const LEGEND_PITCH: usize = 22;
/// Where the headings of the rows stand, and where the first row starts.
const HEADINGS: usize = HEAD + 7 * LEGEND_PITCH + 24;
const TOP: usize = HEADINGS + 32;
/// Room for the words before a level, before a spare and behind one.
const LEVEL_WORDS: usize = 396;
const SPARE_WORDS: usize = 132;
const LAST_WORDS: usize = 170;
/// Columns of these words: where the address ends, the state's middle, where the verdict starts.
const ADDRESS: usize = 118;
const STATE: usize = 150;
const VERDICT: usize = 184;
/// Colours that the colour-blind can tell apart (after Okabe and Ito).
const COLOURS: [&str; 6] = ["#0072b2", "#d55e00", "#000000", "#009e73", "#b8558a", "#b07800"];

const STYLE: &str = "<style>
text{font-family:sans-serif;font-size:12px;fill:#000}
.big{font-size:20px;font-weight:bold}
.fact{font-size:14px}
.heading{font-size:14px;font-weight:bold}
.column{fill:#555}
.strong{font-weight:bold}
.number{font-size:10px;fill:#555}
.number,.state{text-anchor:middle}
.address{font-family:monospace;text-anchor:end}
.counts{fill:#0072b2;stroke:#000}
.other{fill:url(#hatch);stroke:#000}
.empty{fill:#fff;stroke:#000}
.unpaired{fill:#fff;stroke:#777;stroke-dasharray:2 3}
.cells{fill:none;stroke:#bbb}
.cells.inverse{stroke:#fff}
.wide{stroke-width:3}
.differ{fill:#c44601;stroke:#fff;stroke-width:1.5}
.casing{fill:none;stroke:#fff;stroke-width:4}
.line{fill:none}
.used{stroke-width:2}
.idle{stroke-width:1.3;stroke-dasharray:6 4}
.pair:hover .line{stroke-width:5}
</style>
<defs><pattern id=\"hatch\" width=\"5\" height=\"5\" patternUnits=\"userSpaceOnUse\" \
patternTransform=\"rotate(45)\"><rect x=\"0\" y=\"0\" width=\"5\" height=\"5\" fill=\"#fff\"/>
<rect x=\"0\" y=\"0\" width=\"1.4\" height=\"5\" fill=\"#444\"/></pattern></defs>
";

/// The classes of a row's cells.
const COUNTS: &str = "copy counts";
const OTHER: &str = "copy other";
const EMPTY: &str = "empty";
const UNPAIRED: &str = "unpaired";

/// Each sign of the legend, and what it says.
const SIGNS: [(&str, &str); 8] = [
    (COUNTS, "the copy that counts: the saved bytes stand here"),
    (OTHER, "the other copy of that level: does not count"),
    (EMPTY, "an empty level: it was never saved, nothing counts"),
    (UNPAIRED, "a spare without a level: does not count"),
    ("used", "from a level to its spare: the spare counts"),
    ("idle", "from a level to its spare: the level counts"),
    ("differ", "unsaved edits: this frame is not as it was saved"),
    ("silent", "saved with all stops off: its saved bytes are all 0"),
];

/// What the legend says besides.
const NOTES: [&str; 2] = [
    "A cell is a frame of 256 bytes; a wide rule follows every eighth. Line colours only tell lines apart.",
    "Addresses are hexadecimal: frame f starts 100 times f after the address of its row.",
];

/// The picture of a board, as [`Board::read`] gives it.
pub fn picture(board: &Board) -> String {
    let plan = Plan::of(board);
    let (width, height) = (plan.width, plan.height);
    let mut svg = format!(
        "<svg xmlns=\"http://www.w3.org/2000/svg\" width=\"{width}\" height=\"{height}\" \
         viewBox=\"0 0 {width} {height}\" role=\"img\" aria-labelledby=\"title desc\">\n\
         <title id=\"title\">Which copy of each level counts</title>\n<desc id=\"desc\">{}</desc>\n{STYLE}\
         <rect class=\"paper\" x=\"0\" y=\"0\" width=\"{width}\" height=\"{height}\" fill=\"#fff\"/>\n",
        description(board)
    );
    svg += &group("head", &head(board));
    svg += &group("legend", &legend());
    svg += &group("headings", &headings(&plan));
    svg += &group("levels", &(0..board.mains).map(|i| level_row(board, &plan, i)).collect::<String>());
    svg += &group("spares", &(0..board.spares).map(|j| spare_row(board, &plan, j)).collect::<String>());
    svg += &group("pairs", &pairs(board, &plan));
    svg + "</svg>\n"
}

/// Where things stand.
struct Plan {
    frames: usize,
    /// The width of a cell, and its height.
    cell: usize,
    bar: usize,
    /// From one row to the next.
    pitch: usize,
    /// Where the cells of the levels start, the words of the spares and the cells of the spares.
    levels: usize,
    names: usize,
    spares: usize,
    width: usize,
    height: usize,
}

impl Plan {
    fn of(board: &Board) -> Plan {
        let rows = board.mains.max(board.spares);
        let cell = (320 / board.frames).clamp(9, 40);
        let pitch = if rows > 16 { 18 } else { 26 };
        let levels = MARGIN + LEVEL_WORDS;
        let names = levels + cell * board.frames + 100 + 4 * rows;
        let spares = names + SPARE_WORDS;
        Plan {
            frames: board.frames,
            cell,
            bar: pitch - 6,
            pitch,
            levels,
            names,
            spares,
            width: spares + cell * board.frames + LAST_WORDS + MARGIN,
            height: TOP + pitch * rows + MARGIN,
        }
    }

    /// The width of all cells of a row.
    fn strip(&self) -> usize {
        self.cell * self.frames
    }

    fn row(&self, row: usize) -> usize {
        TOP + self.pitch * row
    }

    fn middle(&self, row: usize) -> usize {
        self.row(row) + self.bar / 2
    }

    /// Where the words of a row stand.
    fn baseline(&self, row: usize) -> usize {
        self.middle(row) + 4
    }
}

fn group(class: &str, inside: &str) -> String {
    format!("<g class=\"{class}\">\n{inside}</g>\n")
}

fn text(class: &str, x: usize, y: usize, words: &str) -> String {
    format!("<text class=\"{class}\" x=\"{x}\" y=\"{y}\">{words}</text>\n")
}

/// The whole board in words, for those who do not see it.
fn description(board: &Board) -> String {
    let levels = board.levels.iter().enumerate().map(|(i, level)| format!(" Level {i}: {}.", verdict(level)));
    format!("{}. {}.{}", active_line(board), sizes(board), levels.collect::<String>())
}

fn head(board: &Board) -> String {
    [
        text("big", MARGIN, HEAD - 64, "Which copy of each level counts"),
        text("fact epoch", MARGIN, HEAD - 40, &active_line(board)),
        text("fact sizes", MARGIN, HEAD - 20, &sizes(board)),
        text("fact totals", MARGIN, HEAD, &totals(board)),
    ]
    .concat()
}

fn active_line(board: &Board) -> String {
    let parity = if board.epoch.is_multiple_of(2) { "even" } else { "odd" };
    format!("epoch {} ({parity}): states at {:x}", board.epoch, board.states_at)
}

fn sizes(board: &Board) -> String {
    let count = |number: usize, word: &str| format!("{number} {word}{}", if number == 1 { "" } else { "s" });
    let (levels, spares) = (count(board.mains, "level"), count(board.spares, "spare"));
    let (frames, bytes) = (count(board.frames, "frame"), board.bytes);
    format!("{levels}, {spares}, {frames} in each; {bytes} bytes ({bytes:x} hexadecimal)")
}

fn totals(board: &Board) -> String {
    let number = |is: fn(&Level) -> bool| board.levels.iter().filter(|level| is(level)).count();
    format!(
        "levels that count: {}; spares that count: {}; empty: {}; silent: {}; with unsaved edits: {}",
        number(|level| level.state == 1),
        number(|level| level.state == 2),
        number(|level| level.state == 0),
        number(|level| level.silent),
        number(|level| !level.differ.is_empty()),
    )
}

/// The signs in two columns, and the notes below.
fn legend() -> String {
    let below = |line: usize| HEAD + 10 + (line + 1) * LEGEND_PITCH;
    let mut inside = String::new();
    for (place, (sign, words)) in SIGNS.into_iter().enumerate() {
        let (x, y) = (MARGIN + place % 2 * 430, below(place / 2));
        inside += &sample(sign, x, y - 4);
        inside += &text("meaning", x + 54, y, words);
    }
    let notes = NOTES.into_iter().enumerate();
    inside + &notes.map(|(n, words)| text("meaning", MARGIN, below(4 + n), words)).collect::<String>()
}

/// A sign as the legend shows it, from `x` on, around the height `y`.
fn sample(sign: &str, x: usize, y: usize) -> String {
    let bar = |class: &str| {
        format!("<rect class=\"{class}\" x=\"{x}\" y=\"{}\" width=\"44\" height=\"14\"/>\n", y - 7)
    };
    match sign {
        "used" | "idle" => line(sign, COLOURS[2], (x, y), (x + 44, y)),
        "differ" => bar(OTHER) + &mark(x + 22, y, 4, ""),
        "silent" => text("word", x, y + 4, "silent"),
        _ => bar(sign),
    }
}

/// What stands above the columns.
fn headings(plan: &Plan) -> String {
    let column = |class: &str, x: usize, words: &str| text(class, x, TOP - 8, words);
    [
        text("heading", MARGIN, HEADINGS, "Levels"),
        column("column", MARGIN, "level"),
        column("column address", MARGIN + ADDRESS, "at (hex)"),
        column("column state", MARGIN + STATE, "state"),
        column("column", MARGIN + VERDICT, "which copy counts"),
        frame_numbers(plan, plan.levels),
        text("heading", plan.names, HEADINGS, "Spares"),
        column("column", plan.names, "spare"),
        column("column address", plan.names + ADDRESS, "at (hex)"),
        frame_numbers(plan, plan.spares),
    ]
    .concat()
}

/// The numbers of the frames above their cells, every eighth where cells are narrow.
fn frame_numbers(plan: &Plan, x: usize) -> String {
    let step = if plan.cell < 20 { 8 } else { 1 };
    let number = |f: usize| text("number", x + plan.cell * f + plan.cell / 2, TOP - 8, &f.to_string());
    text("column", x, HEADINGS, "frame") + &(0..plan.frames).step_by(step).map(number).collect::<String>()
}

/// Which copy of a level counts.
fn verdict(level: &Level) -> String {
    let words = match (level.state, level.spare) {
        (0, _) => "empty".to_string(),
        (2, Some(j)) => format!("spare {j} counts"),
        (_, Some(j)) => format!("counts, not spare {j}"),
        (_, None) => "counts".to_string(),
    };
    words + if level.silent { ", silent" } else { "" }
}

/// The words on a copy that counts are strong.
fn verdict_text(class: &str, x: usize, y: usize, words: &str) -> String {
    text(if class == COUNTS { "verdict strong" } else { "verdict" }, x, y, words)
}

fn level_row(board: &Board, plan: &Plan, i: usize) -> String {
    let level = &board.levels[i];
    let class = match level.state {
        0 => EMPTY,
        1 => COUNTS,
        _ => OTHER,
    };
    let (data, y) = (format!("data-level=\"{i}\""), plan.baseline(i));
    let row = [
        format!("<title>{}</title>\n", level_title(board, i)),
        text("name", MARGIN, y, &format!("level {i}")),
        text("address", MARGIN + ADDRESS, y, &format!("{:x}", level.working)),
        text("state", MARGIN + STATE, y, &level.state.to_string()),
        verdict_text(class, MARGIN + VERDICT, y, &verdict(level)),
        cells(plan, class, &data, (plan.levels, plan.row(i))),
        marks(plan, i, &level.differ),
    ];
    format!("<g class=\"row level\" {data}>\n{}</g>\n", row.concat())
}

/// What a pointer that rests on a level is told.
fn level_title(board: &Board, i: usize) -> String {
    let level = &board.levels[i];
    let (state, at, last) = (level.state, level.working, level.working + board.row_bytes() - 1);
    let state_at = board.states_at + i as u64;
    let saved = level.saved.map(|saved| format!("; saved bytes from {saved:x}")).unwrap_or_default();
    let frames = level.differ.iter().map(usize::to_string).collect::<Vec<_>>().join(", ");
    let differ = if frames.is_empty() { frames } else { format!("; unsaved edits in frames {frames}") };
    let verdict = verdict(level);
    format!("level {i}, {at:x} to {last:x}, state {state} at {state_at:x}: {verdict}{saved}{differ}")
}

fn spare_row(board: &Board, plan: &Plan, j: usize) -> String {
    let level = board.level_of(j);
    let (class, words) = match level {
        None => (UNPAIRED, "no level".to_string()),
        Some(i) if board.levels[i].state == 2 => (COUNTS, format!("counts for level {i}")),
        Some(i) => (OTHER, format!("other copy of level {i}")),
    };
    let paired = level.map(|i| format!(" data-level=\"{i}\"")).unwrap_or_default();
    let (data, y, at) = (format!("data-spare=\"{j}\"{paired}"), plan.baseline(j), board.spare_at(j));
    let (last, pair_at) = (at + board.row_bytes() - 1, PAIRS_AT + j);
    let row = [
        format!("<title>spare {j}, {at:x} to {last:x}, pair at {pair_at:x}: {words}</title>\n"),
        text("name", plan.names, y, &format!("spare {j}")),
        text("address", plan.names + ADDRESS, y, &format!("{at:x}")),
        cells(plan, class, &data, (plan.spares, plan.row(j))),
        verdict_text(class, plan.spares + plan.strip() + 10, y, &words),
    ];
    format!("<g class=\"row spare\" {data}>\n{}</g>\n", row.concat())
}

/// The cells of a row: a bar with rules between the frames, without in an unpaired spare.
fn cells(plan: &Plan, class: &str, data: &str, at: (usize, usize)) -> String {
    let (x, y, width, height) = (at.0, at.1, plan.strip(), plan.bar);
    let bar = format!(
        "<rect class=\"{class}\" {data} x=\"{x}\" y=\"{y}\" width=\"{width}\" height=\"{height}\"/>\n"
    );
    let ruled = |thin: &str, wide: &str| rules(plan, thin, 1, at) + &rules(plan, wide, 8, at);
    match class {
        UNPAIRED => bar,
        COUNTS => bar + &ruled("cells inverse", "cells inverse wide"),
        _ => bar + &ruled("cells", "cells wide"),
    }
}

/// A rule after every `step` frames.
fn rules(plan: &Plan, class: &str, step: usize, (x, y): (usize, usize)) -> String {
    let rule = |f: usize| format!("M{} {}v{}", x + plan.cell * f, y + 1, plan.bar - 2);
    let path = (step..plan.frames).step_by(step).map(rule).collect::<String>();
    if path.is_empty() {
        path
    } else {
        format!("<path class=\"{class}\" d=\"{path}\"/>\n")
    }
}

/// A mark on each frame with unsaved edits.
fn marks(plan: &Plan, i: usize, differ: &[usize]) -> String {
    let (y, radius) = (plan.middle(i), plan.cell.min(plan.bar) / 3);
    let x = |f: &usize| plan.levels + plan.cell * f + plan.cell / 2;
    let data = |f: &usize| format!(" data-level=\"{i}\" data-frame=\"{f}\"");
    differ.iter().map(|f| mark(x(f), y, radius, &data(f))).collect()
}

fn mark(x: usize, y: usize, radius: usize, data: &str) -> String {
    format!("<circle class=\"differ\"{data} cx=\"{x}\" cy=\"{y}\" r=\"{radius}\"/>\n")
}

/// A line from each level to its spare; those to a spare that counts lie above.
fn pairs(board: &Board, plan: &Plan) -> String {
    let of_state = |state: u64| {
        let levels = board.levels.iter().enumerate().filter(move |(_, level)| level.state == state);
        levels.filter_map(|(i, level)| Some(pair(plan, i, level.spare?, state))).collect::<String>()
    };
    of_state(1) + &of_state(2)
}

fn pair(plan: &Plan, i: usize, j: usize, state: u64) -> String {
    let (class, which) = if state == 2 { ("used", "spare") } else { ("idle", "level") };
    let from = (plan.levels + plan.strip() + 2, plan.middle(i));
    let to = (plan.names - 6, plan.middle(j));
    let title = format!("<title>level {i} and spare {j}: the {which} counts</title>\n");
    let line = line(class, COLOURS[i % COLOURS.len()], from, to);
    format!("<g class=\"pair\" data-level=\"{i}\" data-spare=\"{j}\">\n{title}{line}</g>\n")
}

/// A line on a white one, so that crossings are clear; an arrow if its end counts.
fn line(class: &str, colour: &str, (x, y): (usize, usize), (end, to): (usize, usize)) -> String {
    let path = format!("M{x} {y}H{}L{} {to}H{}", x + 10, end - 14, end - 4);
    let casing = format!("<path class=\"casing\" d=\"{path}\"/>\n");
    let line = format!("<path class=\"line {class}\" stroke=\"{colour}\" d=\"{path}\"/>\n");
    let arrow =
        format!("<path class=\"arrow\" fill=\"{colour}\" d=\"M{} {}l9 4l-9 4z\"/>\n", end - 9, to - 4);
    casing + &line + if class == "used" { &arrow } else { "" }
}
