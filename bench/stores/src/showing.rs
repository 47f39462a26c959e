//! What is printed of a store.
use crate::article::{Article, settings};
use crate::frames::{Ending, Frame, read_frame};
use std::io::{self, BufRead, Write};

/// The frames of a store up to an offset.
#[derive(Default)]
struct Seen {
    /// The number of their bytes.
    offset: usize,
    /// How many hold an article.
    articles: usize,
    /// How many hold none.
    others: usize,
    /// How many damaged ones stand at the end, and the number of their bytes.
    damaged: (usize, usize),
}

/// Prints the articles of a store if that is asked for, the frames that hold none, and how the store ends. Returns
/// whether it is whole.
pub fn print_store(
    out: &mut impl Write,
    file: &str,
    lists: bool,
    store: &mut impl BufRead,
) -> io::Result<bool> {
    let place = if lists {
        String::new()
    } else {
        format!("{file}: ")
    };
    let mut buffer = Vec::new();
    let mut seen = Seen::default();
    let ending = loop {
        let size = match read_frame(store, &mut buffer)? {
            Frame::Whole(word, size) => {
                print_damaged(out, &place, &mut seen)?;
                print_word(out, &place, lists, &mut seen, word, size)?;
                size
            }
            Frame::Damaged(size) => {
                seen.damaged = (seen.damaged.0 + 1, seen.damaged.1 + size);
                seen.others += 1;
                size
            }
            Frame::None(ending) => break ending,
        };
        seen.offset += size;
    };
    print_damaged(out, &place, &mut seen)?;
    print_ending(out, file, &seen, &ending)?;
    Ok(seen.others == 0 && matches!(ending, Ending::Whole))
}

/// Prints the damaged frames at the end of those that were seen, if there are any.
fn print_damaged(out: &mut impl Write, place: &str, seen: &mut Seen) -> io::Result<()> {
    let (frames, bytes) = std::mem::take(&mut seen.damaged);
    let offset = seen.offset - bytes;
    match frames {
        0 => Ok(()),
        1 => writeln!(out, "{place}{offset}: {bytes} bytes: damaged"),
        _ => writeln!(
            out,
            "{place}{offset}: {bytes} bytes: {frames} damaged frames"
        ),
    }
}

/// Prints what the word of a frame of `size` bytes holds, if that is asked for or is no article, and counts it.
fn print_word(
    out: &mut impl Write,
    place: &str,
    lists: bool,
    seen: &mut Seen,
    word: &[u8],
    size: usize,
) -> io::Result<()> {
    let offset = seen.offset;
    match bincode::decode_from_slice::<Article, _>(word, settings()) {
        Ok((article, taken)) if taken == word.len() => {
            seen.articles += 1;
            if lists {
                write!(out, "{place}{offset}: {size} bytes: ")?;
                print_article(out, &article)?;
            }
        }
        Ok((_, taken)) => {
            seen.others += 1;
            writeln!(
                out,
                "{place}{offset}: {size} bytes: more than an article, which ends after {taken} bytes"
            )?;
        }
        Err(why) => {
            seen.others += 1;
            writeln!(out, "{place}{offset}: {size} bytes: no article ({why})")?;
        }
    }
    Ok(())
}

/// Prints an article.
fn print_article(out: &mut impl Write, article: &Article) -> io::Result<()> {
    write!(out, "{:?} at {}", article.name, article.price)?;
    if let Some(weight) = article.weight {
        write!(out, ", weight {weight}")?;
    }
    for (name, text) in &article.notes {
        write!(out, ", {name:?} = {text:?}")?;
    }
    writeln!(out)
}

/// Prints how a store ends.
fn print_ending(out: &mut impl Write, file: &str, seen: &Seen, ending: &Ending) -> io::Result<()> {
    let Seen {
        offset,
        articles,
        others,
        ..
    } = seen;
    match ending {
        Ending::Whole if *others == 0 => {
            writeln!(out, "{file}: whole, records: {articles}, bytes: {offset}")
        }
        Ending::Whole => {
            writeln!(
                out,
                "{file}: damaged, records: {articles}, damaged frames: {others}, bytes: {offset}"
            )
        }
        Ending::Torn => {
            writeln!(
                out,
                "{file}: truncated at byte {offset}, records before it: {articles}, damaged frames: {others}"
            )
        }
        Ending::TooLong(length) => writeln!(
            out,
            "{file}: no frame at byte {offset}, of a length of {length}, records before it: {articles}, \
             damaged frames: {others}"
        ),
    }
}
