//! include/crpm.h against the crate and the reference: every constant, every
//! macro at many sizes, every field of the session and of a client. A name of the
//! header that stands in none of the tables here fails; so does each spoiled
//! number.

mod c;

use crpm::ffi::Session;
use crpm::{Client, Domain, Layout, Refusal};
use crpm_tests::calls::*;
use crpm_tests::reference::Refusal as Number;
use std::mem::{offset_of, size_of};

const TEXT: &str = include_str!("../../../../include/crpm.h");

/// The numbers: name, what the crate has, what the reference has.
fn numbers() -> Vec<(&'static str, u64, u64)> {
    let kind = |order: Order| order.numbers()[0];
    vec![
        ("WORD_SIZE", crpm::WORD_SIZE as u64, WORD as u64),
        ("LINE_SIZE", crpm::LINE_SIZE as u64, LINE as u64),
        ("BLOCK_SIZE", crpm::BLOCK_SIZE as u64, FRAME as u64),
        ("METADATA_SIZE", crpm::METADATA_SIZE as u64, DATA as u64),
        ("MOST", crpm::MOST as u64, MOST),
        ("MOST_CLIENTS", crpm::MOST_CLIENTS as u64, MOST_CONSOLES as u64),
        ("EPOCH_AT", crpm::EPOCH_AT as u64, EPOCH as u64),
        ("MAINS_AT", crpm::MAINS_AT as u64, HEADER as u64),
        ("BACKUPS_AT", crpm::BACKUPS_AT as u64, (HEADER + WORD) as u64),
        ("BLOCKS_AT", crpm::BLOCKS_AT as u64, (HEADER + 2 * WORD) as u64),
        ("STATES_AT", crpm::STATES_AT as u64, EVEN_STATES as u64),
        ("PAIRS_AT", crpm::PAIRS_AT as u64, PAIRS as u64),
        ("UNPAIRED", crpm::UNPAIRED.into(), UNPAIRED.into()),
        ("SS_INITIAL", crpm::SS_INITIAL.into(), 0),
        ("SS_MAIN", crpm::SS_MAIN.into(), 1),
        ("SS_BACKUP", crpm::SS_BACKUP.into(), 2),
        ("OP_NUMBERS", crpm::OP_NUMBERS as u64, Order::Fence.numbers().len() as u64),
        ("OP_STORE", crpm::OP_STORE, kind(Order::Store { place: 0, word: 0 })),
        ("OP_CLWB", crpm::OP_CLWB, kind(Order::Flush { place: 0 })),
        ("OP_SFENCE", crpm::OP_SFENCE, kind(Order::Fence)),
        ("ADR", Domain::Adr.number(), ADR),
        ("EADR", Domain::Eadr.number(), EADR),
        ("SERVED", 0, 0),
        ("BAD_SIZE", Refusal::BadSize.number(), Number::Size as u64),
        ("BAD_LENGTH", Refusal::BadLength.number(), Number::Length as u64),
        ("FOREIGN", Refusal::Foreign.number(), Number::Foreign as u64),
        ("INVALID", Refusal::Invalid.number(), Number::Unsound as u64),
        ("BAD_SESSION", Refusal::BadSession.number(), Number::Card as u64),
        ("NO_SUCH_MAIN", Refusal::NoSuchMain.number(), Number::Level as u64),
        ("NO_SUCH_BLOCK", Refusal::NoSuchBlock.number(), Number::Frame as u64),
        ("BAD_SPAN", Refusal::BadSpan.number(), Number::Span as u64),
        ("NO_FREE_BACKUP", Refusal::NoFreeBackup.number(), Number::Spares as u64),
        ("EPOCH_LIMIT", Refusal::EpochLimit.number(), Number::Epoch as u64),
        ("TRACE_SHORT", Refusal::TraceShort.number(), Number::TapeShort as u64),
        ("TRACE_BAD", Refusal::TraceBad.number(), Number::TapeBad as u64),
        ("BAD_CLIENTS", Refusal::BadClients.number(), Number::Consoles as u64),
        ("QUOTA_REACHED", Refusal::QuotaReached.number(), Number::Limit as u64),
        ("BACKUPS_RESERVED", Refusal::BackupsReserved.number(), Number::Shares as u64),
    ]
}

/// A layout, and a segment of it.
#[derive(Clone, Copy, Debug)]
struct At {
    sizes: Sizes,
    segment: u64,
}

impl At {
    fn layout(self) -> Layout {
        let Sizes { levels, spares, frames } = self.sizes;
        Layout::new(levels as usize, spares as usize, frames as usize).expect("sizes in range")
    }

    /// The value of a macro's parameter.
    fn value(self, parameter: &str) -> Option<u64> {
        match parameter {
            "M" => Some(self.sizes.levels),
            "S" => Some(self.sizes.spares),
            "B" => Some(self.sizes.frames),
            "I" | "J" => Some(self.segment),
            _ => None,
        }
    }
}

type Formula = fn(At) -> usize;

/// The macros: name, what the crate has, what the reference has.
const MACROS: [(&str, Formula, Formula); 8] = [
    ("IMAGE_SIZE", |at| at.layout().image_size(), |at| at.sizes.image_length()),
    (
        "MAIN_AT",
        |at| at.layout().main_at(at.segment as usize),
        |at| at.sizes.in_level(at.segment as usize, 0),
    ),
    (
        "BACKUP_AT",
        |at| at.layout().backup_at(at.segment as usize),
        |at| at.sizes.in_spare(at.segment as usize, 0),
    ),
    ("OPEN_TRACE", |at| at.layout().open_trace_length(), |at| at.sizes.opening_room()),
    ("WRITE_TRACE", |at| at.layout().write_trace_length(), |at| at.sizes.write_room()),
    ("DISCARD_TRACE", |at| at.layout().discard_trace_length(), |at| at.sizes.discard_room()),
    ("CHECKPOINT_TRACE", |at| at.layout().checkpoint_trace_length(), |at| at.sizes.save_room()),
    ("TRACE", |at| at.layout().trace_length(), |at| at.sizes.room()),
];

/// The fields of the session: declaration, and where the crate has it.
const FIELDS: [(&str, usize); 6] = [
    ("uint64_t mains", offset_of!(Session, mains)),
    ("uint64_t backups", offset_of!(Session, backups)),
    ("uint64_t blocks", offset_of!(Session, blocks)),
    ("uint64_t dirty_segments", offset_of!(Session, dirty_segments)),
    ("uint64_t dirty_blocks [ CRPM_MOST ]", offset_of!(Session, dirty_blocks)),
    ("uint64_t domain", offset_of!(Session, domain)),
];

/// The fields of a client, likewise.
const CLIENT_FIELDS: [(&str, usize); 3] = [
    ("uint64_t reserved", offset_of!(Client, reserved)),
    ("uint64_t quota", offset_of!(Client, quota)),
    ("uint64_t used", offset_of!(Client, used)),
];

/// Holds a header against the tables: how much was compared, or what differs.
fn compare(text: &str) -> Result<usize, String> {
    let header = c::Header::read(text)?;
    let mut known = vec!["CRPM_H".to_string(), "CRPM_VERSION".to_string()];
    due("CRPM_VERSION", header.body("CRPM_VERSION"), format!("\"{}\"", crpm::VERSION))?;
    for (name, ours, reference) in numbers() {
        let name = format!("CRPM_{name}");
        due(&name, header.value(&name)?, ours)?;
        due(&name, ours, reference)?;
        known.push(name);
    }
    for (name, ours, reference) in MACROS {
        let name = format!("CRPM_{name}");
        for at in places() {
            let call = header.call(&name, |parameter| at.value(parameter))?;
            due(&call, header.value(&call)?, ours(at) as u64)?;
            due(&call, ours(at), reference(at))?;
        }
        known.push(name);
    }
    known.sort();
    due("the names of the header", header.names("CRPM_"), known.clone())?;
    compare_fields(&header, "crpm_session", &FIELDS)?;
    compare_fields(&header, "crpm_client", &CLIENT_FIELDS)?;
    due("size of the session", size_of::<Session>(), WORD * (FIELDS.len() - 1 + MOST as usize))?;
    due("size of a client", size_of::<Client>(), WORD * CLIENT_FIELDS.len())?;
    Ok(known.len() + FIELDS.len() + CLIENT_FIELDS.len())
}

fn compare_fields(header: &c::Header, name: &str, fields: &[(&str, usize)]) -> Result<(), String> {
    let declared = fields.iter().map(|(field, _)| field.to_string()).collect();
    due(&format!("fields of {name}"), header.fields(name)?, declared)?;
    let mut words = 0;
    for (field, at) in fields {
        due(field, *at, WORD * words)?;
        words += if field.ends_with(']') { MOST as usize } else { 1 };
    }
    Ok(())
}

fn due<T: PartialEq + std::fmt::Debug>(what: &str, got: T, expected: T) -> Result<(), String> {
    match got == expected {
        true => Ok(()),
        false => Err(format!("{what}: {got:?}, due {expected:?}")),
    }
}

fn places() -> Vec<At> {
    const SOME: [u64; 4] = [1, 2, 5, 64];
    let mut places = Vec::new();
    for levels in SOME {
        for spares in SOME {
            for frames in SOME {
                let sizes = Sizes::new(levels, spares, frames);
                places.extend([0, 1, 63].map(|segment| At { sizes, segment }));
            }
        }
    }
    places
}

#[test]
fn every_constant_agrees() {
    let fields = FIELDS.len() + CLIENT_FIELDS.len();
    assert_eq!(compare(TEXT), Ok(numbers().len() + MACROS.len() + fields + 2));
}

/// The header with one number raised by one, one comparison turned, one name
/// changed, one line more or less.
fn spoiled() -> Vec<(String, String)> {
    let from = TEXT.find("#define CRPM_VERSION").expect("the first definition");
    let to = TEXT.find("---- the calls").expect("the calls follow");
    let mut made = Vec::new();
    let mut at = from;
    let mut in_comment = false;
    while at < to {
        let rest = &TEXT[at..];
        let first = rest.chars().next().expect("not at the end");
        let length = match c::is_word(first) {
            true => rest.find(|c| !c::is_word(c)).expect("not at the end"),
            false => first.len_utf8(),
        };
        in_comment = (in_comment || rest.starts_with("/*")) && !rest.starts_with("*/");
        let token = &rest[..length];
        let other = match token {
            _ if in_comment => None,
            ">" => Some("<".to_string()),
            _ if token.starts_with("CRPM_") => Some(format!("{token}_")),
            _ => token.parse::<u64>().ok().map(|number| (number + 1).to_string()),
        };
        if let Some(other) = other {
            let line = TEXT[..at].lines().count();
            made.push((format!("line {line}: {token} to {other}"), replaced(at, length, &other)));
        }
        at += length;
    }
    let end = TEXT.find("/* ---- the calls").expect("the calls follow");
    made.push(("a constant more".to_string(), replaced(end, 0, "#define CRPM_LATER 7\n")));
    made.push(("a macro more".to_string(), replaced(end, 0, "# define CRPM_LATER(M) (M)\n")));
    for (what, text, other) in [
        ("an enum value more", "CRPM_SERVED = 0,", "CRPM_SERVED = 0, CRPM_LATER = 16,"),
        ("fields exchanged", "uint64_t mains; ", "uint64_t backups; "),
        ("a field of 32 bits", "uint64_t blocks;", "uint32_t blocks;"),
        ("a field more", "uint64_t mains; ", "uint64_t later; uint64_t mains; "),
        ("the last field left out", "uint64_t domain; ", ""),
        ("a client's fields exchanged", "uint64_t reserved; ", "uint64_t quota; "),
        ("a client's field of 32 bits", "uint64_t quota; ", "uint32_t quota; "),
        ("a client's field more", "uint64_t used; ", "uint64_t used; uint64_t later; "),
    ] {
        assert!(TEXT.contains(text), "{what}");
        made.push((what.to_string(), TEXT.replacen(text, other, 1)));
    }
    made
}

fn replaced(at: usize, length: usize, by: &str) -> String {
    [&TEXT[..at], by, &TEXT[at + length..]].concat()
}

#[test]
fn every_spoiled_constant_is_noticed() {
    let spoiled = spoiled();
    assert!(spoiled.len() > 100, "{} spoiled headers", spoiled.len());
    for (what, text) in spoiled {
        assert!(compare(&text).is_err(), "{what} is not noticed");
    }
}
