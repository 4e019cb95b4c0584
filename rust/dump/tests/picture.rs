//! The picture by its structure, and the lines that it is drawn from: what
//! SPECIFICATION 2, 3 and 21 say of a board, looked for in the SVG.

use crpm_dump::board::{Board, Level};
use crpm_dump::picture::picture;
use std::collections::{HashMap, HashSet};

/// The board of examples/dump.
const EXAMPLE: &str = "bytes=3072 mains=3 spares=2 frames=2 epoch=1 states-at=c0 refusal=0
level=0 state=1 spare=- saved=200 working=200 differ=-
level=1 state=2 spare=0 saved=800 working=400 differ=1
level=2 state=0 spare=- saved=empty working=600 differ=0
";

/// Levels, spares and frames: the least and the most, and where cells or rows change their size.
const SIZES: [(usize, usize, usize); 14] = [
    (1, 1, 1),
    (3, 2, 2),
    (8, 4, 4),
    (4, 8, 8),
    (2, 2, 9),
    (16, 8, 16),
    (17, 9, 17),
    (5, 20, 35),
    (64, 1, 64),
    (1, 64, 64),
    (64, 64, 1),
    (1, 1, 64),
    (64, 32, 40),
    (64, 64, 64),
];

// Boards.

/// Where a row starts, levels before spares (2.3).
fn row_at(frames: usize, row: usize) -> u64 {
    (512 + 256 * frames * row) as u64
}

/// A small generator (splitmix64).
struct Rng(u64);

impl Rng {
    fn below(&mut self, end: usize) -> usize {
        self.0 = self.0.wrapping_add(0x9e37_79b9_7f4a_7c15);
        let mut z = self.0;
        z = (z ^ (z >> 30)).wrapping_mul(0xbf58_476d_1ce4_e5b9);
        z = (z ^ (z >> 27)).wrapping_mul(0x94d0_49bb_1331_11eb);
        ((z ^ (z >> 31)) % end as u64) as usize
    }
}

/// A level of a sound board; in state 2 it has a spare.
fn level(sizes: (usize, usize, usize), i: usize, state: u64, spare: Option<usize>) -> Level {
    let (mains, _, frames) = sizes;
    let working = row_at(frames, i);
    let saved = match state {
        0 => None,
        1 => Some(working),
        _ => spare.map(|j| row_at(frames, mains + j)),
    };
    Level { state, spare, saved, working, differ: Vec::new(), silent: false }
}

fn board(sizes: (usize, usize, usize), epoch: u64, levels: Vec<Level>) -> Board {
    let (mains, spares, frames) = sizes;
    let states_at = if epoch.is_multiple_of(2) { 128 } else { 192 };
    Board { bytes: row_at(frames, mains + spares), mains, spares, frames, epoch, states_at, levels }
}

/// Any sound board of these sizes.
fn any_board(sizes: (usize, usize, usize), rng: &mut Rng) -> Board {
    let mut spares: Vec<usize> = (0..sizes.1).collect();
    let mut levels = Vec::new();
    for i in 0..sizes.0 {
        let kind = rng.below(4);
        let spare = if kind > 1 && !spares.is_empty() {
            Some(spares.swap_remove(rng.below(spares.len())))
        } else {
            None
        };
        let state = if spare.is_some() { kind as u64 - 1 } else { kind as u64 % 2 };
        let mut level = level(sizes, i, state, spare);
        let often = rng.below(4);
        level.differ = (0..sizes.2).filter(|_| state != 1 && rng.below(4) < often).collect();
        level.silent = state != 0 && rng.below(4) == 0;
        levels.push(level);
    }
    board(sizes, rng.below(1000) as u64, levels)
}

fn any_boards() -> Vec<Board> {
    let mut rng = Rng(1);
    SIZES.iter().flat_map(|&sizes| (0..6).map(|_| any_board(sizes, &mut rng)).collect::<Vec<_>>()).collect()
}

/// Every level twice, the spare counts, all frames edited.
fn fullest() -> Board {
    let sizes = (64, 64, 64);
    let full = |i: usize| Level { differ: (0..64).collect(), ..level(sizes, i, 2, Some(i * 37 % 64)) };
    board(sizes, u64::MAX, (0..64).map(full).collect())
}

/// The lines of 21.3 and 21.4.
fn lines(board: &Board) -> String {
    let Board { bytes, mains, spares, frames, epoch, states_at, levels } = board;
    let mut text = format!(
        "bytes={bytes} mains={mains} spares={spares} frames={frames} epoch={epoch} \
         states-at={states_at:x} refusal=0\n"
    );
    for (i, level) in levels.iter().enumerate() {
        let spare = level.spare.map_or("-".to_string(), |j| j.to_string());
        let saved = level.saved.map_or("empty".to_string(), |at| format!("{at:x}"));
        let frames: Vec<String> = level.differ.iter().map(usize::to_string).collect();
        let differ = if frames.is_empty() { "-".to_string() } else { frames.join(",") };
        let silent = if level.silent { " silent" } else { "" };
        let (state, working) = (level.state, level.working);
        text += &format!("level={i} state={state} spare={spare} saved={saved} working={working:x} ");
        text += &format!("differ={differ}{silent}\n");
    }
    text
}

#[test]
fn the_example_is_read() {
    let sizes = (3, 2, 2);
    let mut levels = vec![level(sizes, 0, 1, None), level(sizes, 1, 2, Some(0)), level(sizes, 2, 0, None)];
    levels[1].differ = vec![1];
    levels[2].differ = vec![0];
    assert_eq!(levels[1].saved, Some(0x800));
    assert_eq!(Board::read(EXAMPLE), Some(board(sizes, 1, levels)));
}

#[test]
fn sound_boards_are_read() {
    for board in any_boards().into_iter().chain([fullest()]) {
        assert_eq!(Board::read(&lines(&board)), Some(board));
    }
}

/// Places of the example's lines, and words in their stead with which no sound image has them.
const WRONG: &[(&str, &str)] = &[
    ("refusal=0", "refusal=4"),
    ("refusal=0", "refusal=0 "),
    ("refusal=0\n", "\n"),
    ("bytes=3072", "bytes=3073"),
    ("bytes=3072", "bytes=03072"),
    ("bytes=3072", "bytes=+3072"),
    ("bytes=3072 ", "bytes=3072  "),
    ("mains=3", "mains=2"),
    ("mains=3", "mains=18446744073709551615"),
    ("spares=2", "spares=3"),
    ("bytes=3072 mains=3 spares=2", "bytes=2048 mains=3 spares=0"),
    ("spares=2 frames=2", "frames=2 spares=2"),
    ("epoch=1", "epoch=2"),
    ("epoch=1", "epoch=-"),
    ("epoch=1", "epoch=18446744073709551617"),
    ("states-at=c0", "states-at=80"),
    ("states-at=c0", "states-at=C0"),
    ("states-at=c0", "states-at=-"),
    ("level=0", "level=1"),
    ("level=1 ", "level=2 "),
    ("state=1 ", "state=2 "),
    ("state=2 ", "state=1 "),
    ("state=2 ", "state=3 "),
    ("state=2 ", "state=0 "),
    ("spare=- saved=empty", "spare=1 saved=empty"),
    ("spare=0", "spare=-"),
    ("spare=0 saved=800", "spare=2 saved=c00"),
    ("state=1 spare=-", "state=1 spare=0"),
    ("saved=200", "saved=0200"),
    ("saved=200", "saved=0x200"),
    ("saved=800", "saved=a00"),
    ("saved=800", "saved=empty"),
    ("saved=empty", "saved=600"),
    ("working=400", "working=600"),
    ("working=200 differ=-", "working=200 differ=0"),
    ("differ=1", "differ=1,0"),
    ("differ=1", "differ=1,1"),
    ("differ=1", "differ=1,"),
    ("differ=1", "differ=2"),
    ("differ=1", "differ="),
    ("differ=1", "differ=1 silent silent"),
    ("differ=1", "differ=1 loud"),
    ("differ=0\n", "differ=0 silent\n"),
    ("differ=0\n", "differ=0"),
    ("differ=0\n", "differ=0\n\n"),
    ("differ=0\n", "differ=0\nlevel=3 state=0 spare=- saved=empty working=800 differ=-\n"),
    ("level=2 state=0 spare=- saved=empty working=600 differ=0\n", ""),
];

#[test]
fn other_lines_are_not_read() {
    for (right, wrong) in WRONG {
        assert!(EXAMPLE.contains(right), "{right}");
        assert_eq!(Board::read(&EXAMPLE.replacen(right, wrong, 1)), None, "{right} as {wrong}");
    }
    assert_eq!(Board::read(""), None);
    assert_eq!(Board::read("bytes=0 mains=0 spares=0 frames=0 epoch=- states-at=- refusal=1\n"), None);
    assert!(Board::read(&EXAMPLE.replacen("differ=1", "differ=1 silent", 1)).is_some());
}

/// Each size is 1 to 64 (1.2).
#[test]
fn sizes_have_their_bounds() {
    let empty = |sizes: (usize, usize, usize)| {
        let levels = (0..sizes.0).map(|i| level(sizes, i, 0, None)).collect();
        Board::read(&lines(&board(sizes, 0, levels)))
    };
    for sizes in [(1, 1, 1), (64, 1, 1), (1, 64, 1), (1, 1, 64)] {
        assert!(empty(sizes).is_some(), "{sizes:?}");
    }
    for sizes in [(0, 1, 1), (1, 0, 1), (1, 1, 0), (65, 1, 1), (1, 65, 1), (1, 1, 65)] {
        assert!(empty(sizes).is_none(), "{sizes:?}");
    }
}

// A small reader of XML, stricter than it need be.

struct Element {
    name: String,
    attributes: HashMap<String, String>,
    /// The text directly inside.
    words: String,
    parent: Option<usize>,
}

impl Element {
    fn get(&self, key: &str) -> &str {
        self.attributes.get(key).map_or("", String::as_str)
    }

    fn number(&self, key: &str) -> f64 {
        self.get(key).parse().unwrap_or_else(|_| panic!("{}: {key}={}", self.name, self.get(key)))
    }

    fn has_class(&self, class: &str) -> bool {
        class.split_whitespace().all(|word| self.get("class").split(' ').any(|one| one == word))
    }
}

/// All elements in order. Panics unless the text is well formed.
fn elements(xml: &str) -> Vec<Element> {
    let (mut found, mut open, mut rest) = (Vec::<Element>::new(), Vec::<usize>::new(), xml);
    while let Some((words, after)) = rest.split_once('<') {
        let (tag, after) = after.split_once('>').expect("a tag ends");
        rest = after;
        assert!(!words.contains(['&', '>']), "{words}");
        match open.last() {
            Some(&parent) => found[parent].words += words,
            None => assert_eq!(words.trim(), "", "words outside"),
        }
        if let Some(name) = tag.strip_prefix('/') {
            assert_eq!(open.pop().map(|i| found[i].name.as_str()), Some(name), "tags nest");
            continue;
        }
        assert!(found.is_empty() || !open.is_empty(), "a second root");
        let whole = tag.strip_suffix('/');
        found.push(element(whole.unwrap_or(tag), open.last().copied()));
        if whole.is_none() {
            open.push(found.len() - 1);
        }
    }
    assert_eq!((rest.trim(), open.len()), ("", 0), "all tags are closed");
    found
}

fn element(tag: &str, parent: Option<usize>) -> Element {
    let (name, mut rest) = tag.split_once(' ').unwrap_or((tag, ""));
    let mut attributes = HashMap::new();
    assert!(!name.is_empty() && name.chars().all(|c| c.is_ascii_alphabetic()), "{tag}");
    while !rest.is_empty() {
        let (key, after) = rest.split_once("=\"").expect("an attribute has a value");
        let (value, after) = after.split_once('"').expect("a value ends");
        assert!(key.chars().all(|c| c.is_ascii_alphabetic() || c == '-') && !value.contains('&'), "{tag}");
        assert!(attributes.insert(key.to_string(), value.to_string()).is_none(), "{tag}: {key} twice");
        assert!(after.is_empty() || after.starts_with(' '), "{tag}");
        rest = after.trim_start_matches(' ');
    }
    Element { name: name.to_string(), attributes, words: String::new(), parent }
}

/// A picture's elements, and ways to ask for them.
struct Drawn(Vec<Element>);

impl Drawn {
    fn of(board: &Board) -> Drawn {
        Drawn(elements(&picture(board)))
    }

    /// The elements of a class with these attributes; `""` means: without it.
    fn find(&self, class: &str, attributes: &[(&str, &str)]) -> Vec<&Element> {
        let fits =
            |e: &&Element| e.has_class(class) && attributes.iter().all(|(key, value)| e.get(key) == *value);
        self.0.iter().filter(fits).collect()
    }

    /// The row of a level, or of a spare.
    fn row(&self, kind: &str, number: usize) -> usize {
        let (class, key, number) = (format!("row {kind}"), format!("data-{kind}"), number.to_string());
        let rows = self.0.iter().enumerate().filter(|(_, e)| e.get(&key) == number && e.has_class(&class));
        let found: Vec<usize> = rows.map(|(place, _)| place).collect();
        assert_eq!(found.len(), 1, "{class} {number}");
        found[0]
    }

    fn within(&self, parent: usize) -> impl Iterator<Item = &Element> {
        self.0.iter().filter(move |e| e.parent == Some(parent))
    }

    /// The only element of a row with this name and class.
    fn only(&self, row: usize, name: &str, class: &str) -> &Element {
        let all: Vec<&Element> = self.within(row).filter(|e| e.name == name && e.has_class(class)).collect();
        assert_eq!(all.len(), 1, "{name} {class}");
        all[0]
    }

    /// The bar of a level or a spare.
    fn bar(&self, kind: &str, number: usize) -> &Element {
        self.only(self.row(kind, number), "rect", "")
    }

    fn words(&self, kind: &str, number: usize, class: &str) -> &str {
        &self.only(self.row(kind, number), "text", class).words
    }
}

// What is drawn.

#[test]
fn one_copy_counts_or_none_if_empty() {
    for board in any_boards() {
        let drawn = Drawn::of(&board);
        for (i, level) in board.levels.iter().enumerate() {
            let counts = drawn.find("copy counts", &[("data-level", &i.to_string())]);
            assert_eq!(counts.len(), usize::from(level.state != 0));
            assert_eq!(drawn.bar("level", i).has_class("empty"), level.state == 0);
            let Some(saved) = level.saved else { continue };
            let row = counts[0].parent.expect("a row");
            assert_eq!(
                drawn.only(row, "text", "address").words,
                format!("{saved:x}"),
                "it is drawn where it stands"
            );
            assert!(drawn.only(row, "text", "verdict").words.starts_with("counts"));
        }
        let used = board.levels.iter().filter(|level| level.state == 2).count();
        let counting = (0..board.spares).filter(|&j| drawn.bar("spare", j).has_class("counts"));
        assert_eq!(counting.count(), used);
    }
}

#[test]
fn what_stands_twice_is_hatched_once() {
    for board in any_boards() {
        let drawn = Drawn::of(&board);
        for (i, level) in board.levels.iter().enumerate() {
            let other = drawn.find("copy other", &[("data-level", &i.to_string())]);
            assert_eq!(other.len(), usize::from(level.spare.is_some()));
            let in_level = other.iter().filter(|bar| bar.get("data-spare").is_empty()).count();
            assert_eq!(in_level, usize::from(level.state == 2));
        }
        for j in 0..board.spares {
            let level = board.levels.iter().position(|level| level.spare == Some(j));
            let bar = drawn.bar("spare", j);
            assert_eq!(bar.has_class("unpaired"), level.is_none());
            assert_eq!(bar.get("data-level"), level.map_or(String::new(), |i| i.to_string()));
            assert_eq!(
                drawn.within(drawn.row("spare", j)).any(|e| e.has_class("cells")),
                level.is_some() && board.frames > 1
            );
        }
    }
}

/// The two ends of a path that goes from left to right.
fn ends(path: &str) -> ((f64, f64), (f64, f64)) {
    let points = points(path);
    (points[0], points[points.len() - 1])
}

#[test]
fn a_line_leads_from_each_level_to_its_spare() {
    for board in any_boards() {
        let drawn = Drawn::of(&board);
        let pairs = board.levels.iter().filter(|level| level.spare.is_some()).count();
        assert_eq!(drawn.find("pair", &[]).len(), pairs);
        for (i, level) in board.levels.iter().enumerate() {
            let Some(j) = level.spare else { continue };
            let class = if level.state == 2 { "used" } else { "idle" };
            let data = [("data-level", i.to_string()), ("data-spare", j.to_string())];
            let is = |e: &Element| e.has_class("pair") && data.iter().all(|(key, value)| e.get(key) == value);
            let pair = drawn.0.iter().position(is).expect("a pair");
            let (from, to) = ends(drawn.only(pair, "path", &format!("line {class}")).get("d"));
            let (left, right) = (drawn.bar("level", i), drawn.bar("spare", j));
            let middle = |bar: &Element| bar.number("y") + bar.number("height") / 2.0;
            assert_eq!((from.1, to.1), (middle(left), middle(right)));
            assert!((0.0..5.0).contains(&(from.0 - left.number("x") - left.number("width"))));
            assert!(from.0 < to.0 && to.0 < drawn.only(drawn.row("spare", j), "text", "name").number("x"));
            let arrows = drawn.within(pair).filter(|e| e.has_class("arrow")).count();
            assert_eq!(arrows, usize::from(level.state == 2));
        }
    }
}

#[test]
fn unsaved_edits_are_marked_in_their_frames() {
    for board in any_boards().into_iter().chain([fullest()]) {
        let drawn = Drawn::of(&board);
        for (i, level) in board.levels.iter().enumerate() {
            let marks: Vec<&Element> =
                drawn.within(drawn.row("level", i)).filter(|e| e.has_class("differ")).collect();
            assert_eq!(
                marks.iter().map(|e| e.number("data-frame") as usize).collect::<Vec<_>>(),
                level.differ
            );
            let bar = drawn.bar("level", i);
            let (cell, top, bottom) = (
                bar.number("width") / board.frames as f64,
                bar.number("y"),
                bar.number("y") + bar.number("height"),
            );
            for mark in marks {
                let (x, y, r) = (mark.number("cx"), mark.number("cy"), mark.number("r"));
                let left = bar.number("x") + cell * mark.number("data-frame");
                assert!(r >= 2.0 && left <= x - r && x + r <= left + cell && top <= y - r && y + r <= bottom);
                assert_eq!(mark.number("data-level"), i as f64);
            }
        }
        let marks: usize = board.levels.iter().map(|level| level.differ.len()).sum();
        assert_eq!(drawn.find("differ", &[]).len(), marks + 1, "and one in the legend");
    }
}

#[test]
fn rows_have_their_words() {
    for board in any_boards() {
        let drawn = Drawn::of(&board);
        for (i, level) in board.levels.iter().enumerate() {
            let words = drawn.words("level", i, "verdict");
            assert_eq!((words == "empty", words.ends_with(", silent")), (level.state == 0, level.silent));
            let named = level.spare.map(|j| format!("spare {j}"));
            assert!(named.is_none_or(|name| words.replace(',', "").contains(&name)), "{words}");
            assert_eq!(drawn.words("level", i, "name"), format!("level {i}"));
            assert_eq!(drawn.words("level", i, "address"), format!("{:x}", row_at(board.frames, i)));
            assert_eq!(drawn.words("level", i, "state"), level.state.to_string());
            let title = &drawn.only(drawn.row("level", i), "title", "").words;
            let (at, last) = (row_at(board.frames, i), row_at(board.frames, i + 1) - 1);
            assert!(title.starts_with(&format!("level {i}, {at:x} to {last:x}, state {} at ", level.state)));
        }
        for j in 0..board.spares {
            let at = row_at(board.frames, board.mains + j);
            assert_eq!(drawn.words("spare", j, "name"), format!("spare {j}"));
            assert_eq!(drawn.words("spare", j, "address"), format!("{at:x}"));
            let title = &drawn.only(drawn.row("spare", j), "title", "").words;
            assert!(
                title.starts_with(&format!("spare {j}, {at:x} to "))
                    && title.contains(&format!("{:x}: ", 256 + j))
            );
        }
    }
}

#[test]
fn the_head_names_the_active_line_and_the_sizes() {
    let drawn = Drawn::of(&Board::read(EXAMPLE).expect("sound"));
    assert_eq!(drawn.find("epoch", &[])[0].words, "epoch 1 (odd): states at c0");
    assert_eq!(
        drawn.find("sizes", &[])[0].words,
        "3 levels, 2 spares, 2 frames in each; 3072 bytes (c00 hexadecimal)"
    );
    let totals = "levels that count: 1; spares that count: 1; empty: 1; silent: 0; with unsaved edits: 2";
    assert_eq!(drawn.find("totals", &[])[0].words, totals);
    let drawn = Drawn::of(&fullest());
    assert_eq!(drawn.find("epoch", &[])[0].words, "epoch 18446744073709551615 (odd): states at c0");
    let (root, title, desc) = (&drawn.0[0], &drawn.0[1], &drawn.0[2]);
    assert_eq!((root.name.as_str(), title.name.as_str(), desc.name.as_str()), ("svg", "title", "desc"));
    assert_eq!(root.get("aria-labelledby"), format!("{} {}", title.get("id"), desc.get("id")));
    assert!(desc.words.contains(" Level 1: spare 37 counts."));
}

/// Every sign that stands on a board stands in the legend too, with words.
#[test]
fn the_legend_explains_every_sign() {
    let signs = ["counts", "other", "empty", "unpaired", "used", "idle", "differ"];
    for board in any_boards() {
        let drawn = Drawn::of(&board);
        let legend = drawn.0.iter().position(|e| e.has_class("legend")).expect("a legend");
        for sign in signs {
            assert!(drawn.within(legend).any(|e| e.has_class(sign)), "{sign}");
        }
        assert!(drawn.within(legend).any(|e| e.words == "silent"));
        assert!(drawn.within(legend).filter(|e| e.has_class("meaning")).count() > signs.len());
        let shapes = drawn.0.iter().filter(|e| !e.get("data-level").is_empty() && e.name != "g");
        for shape in shapes {
            assert!(signs.iter().any(|sign| shape.has_class(sign)), "{}", shape.get("class"));
        }
    }
}

/// Filled, hatched and blank, which print in black and white too.
#[test]
fn the_style_tells_copies_apart() {
    let drawn = Drawn::of(&Board::read(EXAMPLE).expect("sound"));
    let style = &drawn.0.iter().find(|e| e.name == "style").expect("a style").words;
    for rule in
        [".counts{fill:#0072b2;", ".other{fill:url(#hatch);", ".empty{fill:#fff;", ".unpaired{fill:#fff;"]
    {
        assert_eq!(style.matches(rule).count(), 1, "{rule}");
    }
    assert!(drawn.0.iter().any(|e| e.name == "pattern" && e.get("id") == "hatch"));
    assert!(drawn.find("paper", &[]).iter().all(|paper| paper.get("fill") == "#fff"));
}

// Where it is drawn.

/// The points of a path of the commands M, L, H, l, v and z.
fn points(path: &str) -> Vec<(f64, f64)> {
    let starts: Vec<usize> =
        path.char_indices().filter(|(_, c)| c.is_ascii_alphabetic()).map(|(i, _)| i).collect();
    let (mut found, mut at) = (Vec::new(), (0.0, 0.0));
    for (k, &start) in starts.iter().enumerate() {
        let end = starts.get(k + 1).copied().unwrap_or(path.len());
        let split = path[start + 1..end].replace('-', " -");
        let numbers: Vec<f64> = split.split_whitespace().map(|n| n.parse().expect("a number")).collect();
        at = match (&path[start..=start], &numbers[..]) {
            ("M" | "L", &[x, y]) => (x, y),
            ("H", &[x]) => (x, at.1),
            ("l", &[x, y]) => (at.0 + x, at.1 + y),
            ("v", &[y]) => (at.0, at.1 + y),
            ("z", &[]) => continue,
            (command, _) => panic!("{command} in {path}"),
        };
        found.push(at);
    }
    found
}

/// Left, top, right and bottom of what is drawn; of words, with letters as wide as in wide fonts.
fn extent(e: &Element) -> Option<[f64; 4]> {
    match e.name.as_str() {
        "rect" => {
            let (x, y) = (e.number("x"), e.number("y"));
            Some([x, y, x + e.number("width"), y + e.number("height")])
        }
        "circle" => {
            let (x, y, r) = (e.number("cx"), e.number("cy"), e.number("r"));
            Some([x - r, y - r, x + r, y + r])
        }
        "path" => {
            let (xs, ys): (Vec<f64>, Vec<f64>) = points(e.get("d")).into_iter().unzip();
            let least = |v: &[f64]| v.iter().copied().fold(f64::INFINITY, f64::min);
            let most = |v: &[f64]| v.iter().copied().fold(f64::NEG_INFINITY, f64::max);
            Some([least(&xs), least(&ys), most(&xs), most(&ys)])
        }
        "text" => {
            let sizes = [("big", 20.0), ("fact", 14.0), ("heading", 14.0), ("number", 10.0)];
            let size = sizes.iter().find(|(class, _)| e.has_class(class)).map_or(12.0, |(_, size)| *size);
            let wide = 0.6 * size * e.words.len() as f64;
            let before = if e.has_class("address") {
                1.0
            } else {
                f64::from(e.has_class("state") || e.has_class("number")) / 2.0
            };
            let (x, y) = (e.number("x") - wide * before, e.number("y"));
            Some([x, y - 0.8 * size, x + wide, y + 0.2 * size])
        }
        _ => None,
    }
}

/// What is drawn, but for the paper and the pattern.
fn extents(drawn: &Drawn) -> Vec<(&Element, [f64; 4])> {
    let pattern = drawn.0.iter().position(|e| e.name == "pattern");
    let shapes = drawn.0.iter().filter(|e| e.parent != pattern && !e.has_class("paper"));
    shapes.filter_map(|e| Some((e, extent(e)?))).collect()
}

#[test]
fn everything_is_inside() {
    for board in any_boards().into_iter().chain([fullest()]) {
        let drawn = Drawn::of(&board);
        let (width, height) = (drawn.0[0].number("width"), drawn.0[0].number("height"));
        assert_eq!(drawn.0[0].get("viewBox"), format!("0 0 {width} {height}"));
        for (e, [left, top, right, bottom]) in extents(&drawn) {
            let inside = 0.0 <= left
                && left <= right
                && right <= width
                && 0.0 <= top
                && top <= bottom
                && bottom <= height;
            assert!(inside, "{} {} {}", e.name, e.get("class"), e.words);
            assert!(e.name != "rect" || (right - left >= 9.0 && bottom - top >= 9.0), "a bar is seen");
        }
    }
}

/// Words lie neither on each other nor on bars, and no bar on another.
#[test]
fn nothing_is_covered() {
    for board in any_boards() {
        let drawn = Drawn::of(&board);
        let mut solid = extents(&drawn);
        solid.retain(|(e, _)| e.name == "rect" || e.name == "text");
        for (k, (e, a)) in solid.iter().enumerate() {
            for (f, b) in &solid[..k] {
                let apart = a[2] <= b[0] || b[2] <= a[0] || a[3] <= b[1] || b[3] <= a[1];
                assert!(apart, "{} {} and {} {}", e.get("class"), e.words, f.get("class"), f.words);
            }
        }
    }
}

/// Rows go down in address order, levels and spares side by side.
#[test]
fn rows_are_in_order() {
    for board in any_boards() {
        let drawn = Drawn::of(&board);
        for (kind, rows) in [("level", board.mains), ("spare", board.spares)] {
            let tops: Vec<f64> = (0..rows).map(|row| drawn.bar(kind, row).number("y")).collect();
            let lefts: HashSet<&str> = (0..rows).map(|row| drawn.bar(kind, row).get("x")).collect();
            assert!(tops.is_sorted_by(|a, b| a < b) && lefts.len() == 1);
        }
        assert_eq!(drawn.bar("level", 0).get("y"), drawn.bar("spare", 0).get("y"));
        assert_eq!(drawn.bar("level", 0).get("width"), drawn.bar("spare", 0).get("width"));
    }
}

// Pictures of different boards.

/// All levels that a board of these sizes can have in a place, but for the spares of others.
fn all_levels(sizes: (usize, usize, usize), i: usize) -> Vec<Level> {
    let spares: Vec<Option<usize>> = [None].into_iter().chain((0..sizes.1).map(Some)).collect();
    let mut found = Vec::new();
    for (state, spare) in (0..3).flat_map(|state| spares.iter().map(move |&spare| (state, spare))) {
        if (state == 0 && spare.is_some()) || (state == 2 && spare.is_none()) {
            continue;
        }
        for frames in 0..if state == 1 { 1 } else { 1 << sizes.2 } {
            for silent in [false, true].into_iter().take(if state == 0 { 1 } else { 2 }) {
                let differ = (0..sizes.2).filter(|f| frames >> f & 1 == 1).collect();
                found.push(Level { differ, silent, ..level(sizes, i, state, spare) });
            }
        }
    }
    found
}

/// All sound boards of some small sizes: no two have the same picture.
#[test]
fn different_boards_have_different_pictures() {
    let (mut boards, mut pictures) = (0, HashSet::new());
    for sizes in [(2, 2, 2), (2, 1, 1), (2, 1, 2), (2, 2, 1)] {
        for first in all_levels(sizes, 0) {
            for second in all_levels(sizes, 1) {
                for epoch in 0..3 {
                    let Some(board) =
                        Board::read(&lines(&board(sizes, epoch, vec![first.clone(), second.clone()])))
                    else {
                        assert!(first.spare.is_some() && first.spare == second.spare);
                        continue;
                    };
                    boards += 1;
                    pictures.insert(picture(&board));
                }
            }
        }
    }
    assert_eq!(pictures.len(), boards);
}

#[test]
fn the_largest_picture_is_below_a_megabyte() {
    let largest = picture(&fullest()).len();
    assert!(largest < 1_000_000, "{largest}");
}
