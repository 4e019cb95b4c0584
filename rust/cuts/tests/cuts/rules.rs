//! The cuts by the rules themselves: what each line may hold is read off the list of all
//! orders (`crash::permitted`), and the page that counts off the image (README.md, which
//! copy in a dump counts), with no opening and no read.

use crate::common::{random_sheet, shown, SHEETS};
use crpm_cuts::Plan;
use crpm_tests::benches::Rubbish;
use crpm_tests::book::{Book, Contents};
use crpm_tests::calls::*;
use crpm_tests::crash::{permitted, LineBytes};
use crpm_tests::explore::is_epoch_store;
use crpm_tests::prng::Rng;
use crpm_tests::reference::Reference;
use crpm_tests::sheet::{printed_on, Sheet, HALF};

/// What is due at a cut: how many images, and what they show.
#[derive(PartialEq, Eq, Debug)]
struct Due {
    images: usize,
    shows: String,
}

/// The different images that may stand, by the rule for each line.
fn images(held: &[u8], orders: &[Order]) -> Vec<Vec<u8>> {
    let mut all = vec![Vec::new()];
    for line in 0..held.len() / LINE {
        let mut contents: Vec<LineBytes> = permitted(ADR, held, orders, line);
        contents.sort();
        contents.dedup();
        let with = |image: &Vec<u8>| contents.iter().map(|bytes| [&image[..], bytes].concat()).collect();
        all = all.iter().flat_map(|image| -> Vec<Vec<u8>> { with(image) }).collect();
    }
    all
}

/// The line of every call of a sheet, and what is due at each of its cuts.
fn due(input: &[u8]) -> Vec<(String, Vec<Due>)> {
    let Ok(sheet) = Sheet::read(input) else { panic!("a bad sheet") };
    let sizes = sheet.sizes(HALF);
    let page = |image: &[u8]| Book::start(image, sizes).saved;
    let (mut held, mut played, mut calls) = (Vec::new(), Vec::new(), Vec::new());
    printed_on(&Reference::good(), Rubbish::Zeros, HALF, input, |group, call, ran| {
        if calls.is_empty() {
            held.clone_from(&ran.before);
        }
        let orders = orders_of(&ran.orders, held.len()).expect("well formed");
        let (old, new) = (page(&ran.before), page(&ran.dump));
        let mut cuts = Vec::new();
        for p in 0..=orders.len() {
            let stands = images(&held, &[&played[..], &orders[..p]].concat());
            let window = call.deed == Deed::Save && orders[..p].iter().any(is_epoch_store);
            let pages: Vec<Contents> = stands.iter().map(|image| page(image)).collect();
            let finished = p == orders.len();
            assert!(pages
                .iter()
                .all(|page| *page == old && !finished || *page == new && (window || finished)));
            let names = [("old", &old), ("new", &new)].map(|(name, due)| pages.contains(due).then_some(name));
            let names = if old == new { [names[0], None] } else { names };
            let shows = names.into_iter().flatten().collect::<Vec<_>>().join(",");
            cuts.push(Due { images: stands.len(), shows });
        }
        let name = match call.deed {
            Deed::Open(..) => "open".to_string(),
            Deed::Save => format!("step={group} save"),
            _ => format!("step={group} write"),
        };
        calls.push((format!("{name}={} orders={}", ran.answer.number, orders.len()), cuts));
        played.extend(orders);
    });
    calls
}

/// The numbers of `LEAST..GREATEST`, or of one number alone.
fn span(text: &str) -> (usize, usize) {
    let (least, greatest) = text.split_once("..").unwrap_or((text, text));
    (least.parse().expect("a number"), greatest.parse().expect("a number"))
}

/// Holds the lines of a sheet's cuts against what is due.
fn hold(name: &str, input: &[u8]) {
    let (text, totals) = shown(&Reference::good(), input, &Plan::DEFAULT);
    let due = due(input);
    let mut lines = text.lines();
    for (call, cuts) in &due {
        let told = format!("{name}, {call}: {text}");
        assert_eq!(lines.next(), Some(&call[..]), "{told}");
        let mut next = 0;
        while next < cuts.len() {
            let fields: Vec<&str> = lines.next().expect("a line").split(['=', ' ']).collect();
            let ["cut", at, "images", images, "shows", shows] = fields[..] else { panic!("{told}") };
            let (first, last) = span(at);
            assert!(first == next && last >= first && last < cuts.len(), "{told}");
            let all = &cuts[first..=last];
            assert!(all.iter().all(|due| due.shows == shows), "{told}");
            assert_eq!(all.iter().map(|due| due.images).min(), Some(span(images).0), "{told}");
            assert_eq!(all.iter().map(|due| due.images).max(), Some(span(images).1), "{told}");
            assert!(cuts.get(last + 1).is_none_or(|due| due.shows != shows), "{told}");
            next = last + 1;
        }
    }
    let all = || due.iter().flat_map(|(_, cuts)| cuts);
    let (cuts, images) = (all().count() as u64, all().map(|due| due.images as u64).sum::<u64>());
    assert_eq!((totals.cuts, totals.images, totals.other), (cuts, images, 0), "{name}: {text}");
    assert_eq!(lines.next(), Some(&format!("cuts={cuts} images={images} other=0")[..]), "{name}: {text}");
    assert_eq!(lines.next(), None, "{name}: {text}");
}

#[test]
fn sheets_in_files() {
    for (name, input) in SHEETS {
        if name != "long" {
            hold(name, input);
        }
    }
}

/// Most of them have few images.
#[test]
fn random_sheets() {
    let mut rng = Rng::new(72);
    let mut held = 0;
    for number in 0..60 {
        let input = random_sheet(&mut rng);
        let (_, totals) = shown(&Reference::good(), &input, &Plan::DEFAULT);
        if totals.images < 30 * totals.cuts {
            hold(&format!("sheet {number}"), &input);
            held += 1;
        }
    }
    assert!(held > 30, "{held} sheets");
}
