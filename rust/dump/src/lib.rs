//! Shows which copy of each level in a dump counts, and whether two dumps are alike
//! (docs/SPECIFICATION.md, section 21).
//!
//! The lines come from the proved library and from nowhere else (`proved`), and so do
//! the saved bytes (`frames`). What stands here is around them: arguments, files, dumps
//! as text, tables and pictures.

pub mod arguments;
pub mod board;
pub mod frames;
pub mod input;
pub mod picture;
pub mod proved;
pub mod xxd;

use arguments::{Request, View, USAGE};
use std::ffi::{OsStr, OsString};

/// The status of an image that is refused, or of two that are not alike.
const REFUSED: u8 = 1;
/// The status if nothing was shown: wrong usage, a file that cannot be read, output that
/// cannot be written.
pub const NOT_DONE: u8 = 2;

/// What a run prints on standard output, says on standard error, and its exit status.
#[derive(Clone, PartialEq, Eq, Default, Debug)]
pub struct Answer {
    pub printed: String,
    pub said: String,
    pub status: u8,
}

impl Answer {
    fn printed(printed: String, status: u8) -> Answer {
        Answer { printed, said: String::new(), status }
    }

    fn said(said: String, status: u8) -> Answer {
        Answer { printed: String::new(), said, status }
    }
}

/// The answer to the program's arguments.
pub fn answer(arguments: impl Iterator<Item = OsString>) -> Answer {
    let done = match arguments::parse(arguments) {
        Err(wrong) => return Answer::said(format!("dump: {wrong}\n{USAGE}"), NOT_DONE),
        Ok(Request::Help) => Ok(Answer::printed(USAGE.to_string(), 0)),
        Ok(Request::Show { file, sizes, xxd, view }) => show(&file, sizes, xxd, view),
        Ok(Request::Compare { a, b, sizes, xxd }) => compare(&a, &b, sizes, xxd),
    };
    done.unwrap_or_else(|reason| Answer::said(format!("dump: {reason}\n"), NOT_DONE))
}

/// An image in lines, as a table or as a picture.
fn show(file: &OsStr, sizes: Option<[u64; 3]>, xxd: bool, view: View) -> Result<Answer, String> {
    let image = input::image(file, xxd)?;
    let sizes = sizes.unwrap_or_else(|| proved::own_sizes(&image));
    let (refusal, text) = proved::dump_text(&image, sizes);
    if refusal != 0 {
        return Ok(refused(text, view));
    }
    let unread = |refusal| format!("the saved bytes were not found: {refusal}");
    let printed = match view {
        View::Lines => text,
        View::Frames => frames::behind_levels(&text, &image, sizes).map_err(unread)?,
        View::Csv => frames::table(&image, sizes).map_err(unread)?,
        View::Svg => drawn(&text).ok_or("no picture can be made of these lines")?,
    };
    Ok(Answer::printed(printed, 0))
}

fn drawn(text: &str) -> Option<String> {
    Some(picture::picture(&board::Board::read(text)?))
}

/// The first line of a refused image; beside it a table has its header row and a picture
/// nothing.
fn refused(text: String, view: View) -> Answer {
    match view {
        View::Lines | View::Frames => Answer::printed(text, REFUSED),
        View::Csv => Answer { printed: frames::HEADER.to_string(), ..Answer::said(text, REFUSED) },
        View::Svg => Answer::said(text, REFUSED),
    }
}

/// Whether two images are alike, by the sizes that are given or the first one's own.
fn compare(a: &OsStr, b: &OsStr, sizes: Option<[u64; 3]>, xxd: bool) -> Result<Answer, String> {
    let (a, b) = (input::image(a, xxd)?, input::image(b, xxd)?);
    let sizes = sizes.unwrap_or_else(|| proved::own_sizes(&a));
    let (refusal, text) = proved::same_text(&a, &b, sizes);
    let alike = refusal == 0 && text == "same=1\n";
    Ok(Answer::printed(text, if alike { 0 } else { REFUSED }))
}
