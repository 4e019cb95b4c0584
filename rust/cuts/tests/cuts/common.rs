//! What the tests share.

use crpm_cuts::{show, Plan, Totals};
use crpm_tests::calls::Calls;
use crpm_tests::prng::Rng;
use crpm_tests::sheet::Sheet;

/// All of it, also behind the cuts.
pub const AGAIN: Plan = Plan { again: true, ..Plan::DEFAULT };

/// What is printed for a good sheet over these calls, and the totals.
pub fn shown<C: Calls>(calls: &C, input: &[u8], plan: &Plan) -> (String, Totals) {
    let Ok(sheet) = Sheet::read(input) else { panic!("a bad sheet: {}", String::from_utf8_lossy(input)) };
    let mut out = Vec::new();
    let totals = show(calls, &sheet, plan, &mut out, &mut |_, _| ()).expect("a vector can be written");
    (String::from_utf8(out).expect("plain text"), totals)
}

/// A sheet of these sizes, with groups of level, frame, offset, bytes and save.
pub fn sheet(sizes: [usize; 3], groups: &[(usize, usize, usize, &[u8], u8)]) -> Vec<u8> {
    let [levels, spares, frames] = sizes;
    let mut text = format!("mains={levels}\nspares={spares}\nframes={frames}\n");
    for (level, frame, at, bytes, save) in groups {
        let digits: String = bytes.iter().map(|byte| format!("{byte:02x}")).collect();
        text += &format!("level={level}\nframe={frame}\nat={at}\nbytes={digits}\nsave={save}\n");
    }
    text.into_bytes()
}

/// A small random sheet; few of its writes are refused.
pub fn random_sheet(rng: &mut Rng) -> Vec<u8> {
    let sizes = [rng.range(1, 3), rng.range(1, 2), rng.range(1, 2)];
    let bytes: Vec<Vec<u8>> = (0..rng.range(1, 6))
        .map(|_| {
            let length = rng.range(1, 20);
            rng.bytes(length)
        })
        .collect();
    let groups: Vec<_> = bytes
        .iter()
        .map(|bytes| {
            let level = if rng.once_in(20) { 9 } else { rng.below(sizes[0]) };
            let at = rng.pick(&[0, 4, 60, 120, 250]);
            (level, rng.below(sizes[2]), at, &bytes[..], rng.below(2) as u8)
        })
        .collect();
    sheet(sizes, &groups)
}

/// The sheets of the examples and of the faults.
pub const SHEETS: [(&str, &[u8]); 9] = [
    ("first", include_bytes!("../../../../examples/first.sheet")),
    ("older", include_bytes!("../../../../examples/older.sheet")),
    ("benches", include_bytes!("../../../../examples/benches.sheet")),
    ("long", include_bytes!("../../../../examples/long.sheet")),
    ("state-before-fence", include_bytes!("../../sheets/state-before-fence.sheet")),
    ("marks-cleared", include_bytes!("../../sheets/marks-cleared.sheet")),
    ("opening-skips-copy", include_bytes!("../../sheets/opening-skips-copy.sheet")),
    ("spare-by-idle-line", include_bytes!("../../sheets/spare-by-idle-line.sheet")),
    ("first-frame-marked", include_bytes!("../../sheets/first-frame-marked.sheet")),
];

/// One of them.
pub fn sheet_named(name: &str) -> &'static [u8] {
    SHEETS.iter().find(|(known, _)| *known == name).expect("a sheet of this name").1
}
