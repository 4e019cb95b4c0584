//! Wrong calls that no fault of the reference is, so that each side of what may be shown is
//! tried; and which images of many are opened.

use crate::common::{sheet, sheet_named, shown};
use crpm_cuts::{show, Plan};
use crpm_tests::calls::*;
use crpm_tests::reference::Reference;
use crpm_tests::sheet::Sheet;
use std::cell::RefCell;
use std::collections::BTreeSet;

/// Makes a call in place of the reference, which is handed to it.
type Instead = fn(&Reference, &Deed, &[u8], Given) -> Answer;

struct Wrong {
    good: Reference,
    make: Instead,
    /// The images that were opened, in their order.
    opened: RefCell<Vec<Vec<u8>>>,
}

impl Wrong {
    fn with(make: Instead) -> Wrong {
        Wrong { good: Reference::good(), make, opened: RefCell::default() }
    }
}

impl Calls for Wrong {
    fn lay_out(&self, image: &mut [u8], sizes: Sizes) -> u64 {
        self.good.lay_out(image, sizes)
    }

    fn make(&self, deed: &Deed, image: &[u8], given: Given) -> Answer {
        if matches!(deed, Deed::Open(..)) {
            self.opened.borrow_mut().push(image.to_vec());
        }
        (self.make)(&self.good, deed, image, given)
    }

    fn play(&self, image: &mut [u8], tape: &[u64], n: u64) -> Answer {
        self.good.play(image, tape, n)
    }

    fn read(&self, page: Page, image: &[u8], sizes: Sizes, level: u64, frame: u64) -> Part {
        self.good.read(page, image, sizes, level, frame)
    }

    fn like(&self, first: &[u8], second: &[u8], sizes: Sizes) -> (u64, bool) {
        self.good.like(first, second, sizes)
    }
}

/// A save without its last fence.
fn without_last_fence(good: &Reference, deed: &Deed, image: &[u8], given: Given) -> Answer {
    let answer = good.make(deed, image, given);
    Answer { orders: answer.orders - u64::from(*deed == Deed::Save), ..answer }
}

/// A write that copies nothing: its own stores alone, to a level that stays in state 1.
fn without_copy(good: &Reference, deed: &Deed, image: &[u8], Given { card, run, tape }: Given) -> Answer {
    let before = *card;
    let answer = good.make(deed, image, Given::of(card, run, tape));
    let orders = orders_of(&tape[..3 * answer.orders as usize], image.len()).expect("well formed");
    let fences = orders.iter().rposition(|order| *order == Order::Fence).map_or(0, |at| at + 1);
    if fences == 0 || !matches!(deed, Deed::Write(..)) {
        return answer;
    }
    tape.copy_within(3 * fences.., 0);
    card.touched = before.touched;
    Answer { orders: answer.orders - fences as u64, ..answer }
}

/// A finished save must be shown; before its last order either page may be.
#[test]
fn the_old_page_after_a_finished_save() {
    let (text, totals) = shown(&Wrong::with(without_last_fence), sheet_named("first"), &Plan::DEFAULT);
    let due = "\nstep=1 save=0 orders=17
cut=0..15 images=1..3 shows=old
cut=16 images=2 shows=old,new
cut=17 images=2 shows=new,other
cuts=95 images=";
    assert!(text.contains(due), "{text}");
    assert_eq!(totals.other, 1, "{text}");
}

/// Bytes that are written where the saved ones stand are shown before they are saved: at one
/// cut of the write, and at those of the save up to its epoch store (cuts 0 to 4 leave the
/// line old or new, 6 to 14 the states).
#[test]
fn the_new_page_before_the_epoch_store() {
    let input = sheet([1, 1, 1], &[(0, 0, 0, &[1], 1), (0, 0, 0, &[2], 1)]);
    let (text, totals) = shown(&Wrong::with(without_copy), &input, &Plan::DEFAULT);
    let due = "\nstep=2 write=0 orders=1
cut=0 images=1 shows=old
cut=1 images=2 shows=old,other
step=2 save=0 orders=18
cut=0..4 images=2 shows=old,other
cut=5..15 images=1..2 shows=other
cut=16..18 images=1..2 shows=new
";
    assert!(text.contains(due), "{text}");
    assert_eq!(totals.other, 1 + 5 + (1 + 9 * 2 + 1), "{text}");
}

/// The same with four words in one line, and four images at a cut opened: none of these
/// twice, though the line is the only one that may be ahead or left behind.
#[test]
fn no_image_is_counted_twice() {
    let input = sheet([1, 1, 1], &[(0, 0, 0, &[1; 4 * WORD], 1), (0, 0, 0, &[2; 4 * WORD], 1)]);
    let (text, totals) = shown(&Wrong::with(without_copy), &input, &Plan { most: 4, again: false });
    assert!(text.contains("\ncut=4 images=5 tried=4 shows=old,other\nstep=2 save"), "{text}");
    assert_eq!(totals.other, (1 + 2 + 3 + 3) + 5 * 3 + (1 + 9 * 2 + 1), "{text}");
}

/// An opening that is served and does nothing: the two reads differ where a word was
/// written and not saved.
#[test]
fn both_reads_must_show_the_page() {
    let idle: Instead = |good, deed, image, given| {
        let answer = good.make(deed, image, given);
        if matches!(deed, Deed::Open(..)) {
            Answer { orders: 0, ..answer }
        } else {
            answer
        }
    };
    let (text, _) = shown(&Wrong::with(idle), sheet_named("first"), &Plan::DEFAULT);
    assert!(text.contains("\ncut=0 images=1 shows=old\ncut=1..2 images=2..3 shows=old,other\n"), "{text}");
}

/// The reference, which remembers what it opened.
fn remembering() -> Wrong {
    Wrong::with(|good, deed, image, given| good.make(deed, image, given))
}

/// 16 lines of 8 words.
const LONG: [u8; 16 * LINE] = [7; 16 * LINE];

/// A write of 16 lines leaves 9 to the 16 images. Among those opened are the one without
/// it, the one with all of it, and those with one line alone written or left out.
#[test]
fn some_of_many_images() {
    let calls = remembering();
    let input = sheet([1, 1, 4], &[(0, 0, 0, &LONG, 0)]);
    let (text, _) = shown(&calls, &input, &Plan { most: 60, again: false });
    assert!(text.contains(&format!("..{} tried=60 shows=old\n", 9u64.pow(16))), "{text}");
    let opened = calls.opened.borrow();
    let frames: BTreeSet<&[u8]> = opened.iter().map(|image| &image[DATA..][..LONG.len()]).collect();
    let all_but = |byte: u8, line: Option<usize>| {
        let mut frames = vec![byte; LONG.len()];
        if let Some(line) = line {
            frames[line * LINE..][..LINE].fill(7 - byte);
        }
        frames
    };
    for line in [None].into_iter().chain((0..16).map(Some)) {
        for byte in [0, 7] {
            assert!(frames.contains(&all_but(byte, line)[..]), "{byte}, {line:?}");
        }
    }
}

/// Where not all boards go on, those that do are of many cuts: of the write's 128 they have
/// words in most of its lines. A board that goes on is opened twice in a row, to see its
/// page and to go on.
#[test]
fn boards_of_many_cuts_go_on() {
    let calls = remembering();
    let input = sheet([1, 1, 4], &[(0, 0, 0, &LONG, 0)]);
    let (text, _) = shown(&calls, &input, &Plan { most: 8, again: true });
    let opened = calls.opened.borrow();
    let boards = opened.windows(2).filter(|two| two[0] == two[1]).map(|two| &two[0][DATA..][..LONG.len()]);
    let last_lines: BTreeSet<_> = boards.map(|frames| frames.iter().rposition(|byte| *byte != 0)).collect();
    let last_lines: BTreeSet<_> = last_lines.into_iter().flatten().map(|place| place / LINE).collect();
    assert!(text.contains(" tried=") && last_lines.len() > 8, "{last_lines:?}, {text}");
}

/// Whoever watches hears where the work is and how many images were opened, each once.
#[test]
fn the_work_is_told() {
    let Ok(sheet) = Sheet::read(sheet_named("first")) else { panic!("a bad sheet") };
    let told = |again: bool| {
        let (calls, mut places, mut last) = (remembering(), Vec::new(), 0);
        let mut watch = |place: &str, images: usize| {
            assert!(images >= last);
            last = images;
            if places.last().is_none_or(|known| known != place) {
                places.push(place.to_string());
            }
        };
        let plan = Plan { again, ..Plan::DEFAULT };
        show(&calls, &sheet, &plan, &mut Vec::new(), &mut watch).expect("a vector can be written");
        let opened = calls.opened.into_inner();
        assert_eq!(last, opened.iter().collect::<BTreeSet<_>>().len());
        // the sheet's own opening is one more
        assert!(again || opened.len() == last + 1);
        places
    };
    let calls = ["open", "step=1 write", "step=1 save"];
    assert_eq!(told(false), calls);
    assert_eq!(told(true), calls.map(|call| [call.to_string(), format!("{call}, again")]).concat());
}
