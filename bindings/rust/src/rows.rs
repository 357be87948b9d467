//! The rows of lines.
use crate::error::{judge, Error};
use crate::made::filled;
use crate::text::count_bytes;
use crate::{raw, Paths, Text};

/// The rows of lines, each of which is read by itself, as a log has a JSON text in each: what the paths lead to
/// in it. So many lines come `before` the first.
///
/// Each is read no further than its paths need: what is broken behind that isn't seen, so
/// [`validate`](crate::validate) each line that is to be whole.
///
/// A line ends with a line feed, and the last one also with the text. One of white space alone counts, and has no
/// row. Each other has one, which ends with a line feed:
///
/// - for each path the length of the value's text in bytes, a blank and that text, or `-` where an object with
///   members lacks the path's key, with a tab between two of them;
/// - or, of a line that is broken or in which a path leads nowhere otherwise, `! NUMBER WORD CODE OFFSET`: the
///   number of the line from 1; the error's family, which is `syntax`, `eof`, `not-found` or `type`; the name of
///   its code; and its offset in the line from 0.
///
/// So no error of a line is one of the call, which is an [`Error::BadNumber`] where too many lines come before.
///
/// ```
/// use jihluka::{path, rows, Paths};
/// let fields = Paths::new([path!["id"], path!["tags", 0]])?;
/// let log = "{\"id\":7,\"tags\":[\"a\"]}\n{\"id\":8}\n\n{\"id\":tru}\n";
/// assert_eq!(rows(log, &fields, 0)?, b"1 7\t3 \"a\"\n1 8\t-\n! 4 syntax InvalidLiteral 9\n");
/// # Ok::<(), jihluka::Error>(())
/// ```
pub fn rows<T: Text + ?Sized>(lines: &T, paths: &Paths, before: u64) -> Result<Vec<u8>, Error> {
    let (text, paths) = (lines.bytes(), &paths.lines);
    filled(
        // What takes the values of a line that lie apart, as no length has more digits than its text has bytes.
        2 * text.len() + 2,
        judge,
        // SAFETY: the slices are borrowed while the call runs, the room is as long as is said, and it and the two
        // cells are no one else's.
        |room, wanted, fault| unsafe {
            raw::jihluka_rows(
                text.as_ptr(),
                text.len(),
                paths.as_ptr(),
                paths.len(),
                before,
                room.as_mut_ptr(),
                room.len(),
                wanted,
                fault,
            )
        },
    )
}

/// The [`rows`] of a stream that comes in pieces, which may be cut anywhere.
///
/// What follows the last line feed is held until its line ends. After an error all is as it was, so that the same
/// may be tried again.
///
/// ```
/// use jihluka::{path, Paths, Rows};
/// let mut stream = Rows::new(Paths::new([path!["id"]])?);
/// assert_eq!(stream.feed(b"{\"id\":7}\n{\"id\"")?, b"1 7\n");
/// assert_eq!(stream.feed(b":8")?, b"");
/// assert_eq!(stream.feed(b"}\n{\n{\"id\":9}")?, b"1 8\n! 3 eof EofWhileParsing 0\n");
/// assert_eq!((stream.lines(), stream.finish()?), (3, b"1 9\n".to_vec()));
/// # Ok::<(), jihluka::Error>(())
/// ```
#[derive(Clone, Debug)]
pub struct Rows {
    paths: Paths,
    lines: u64,
    /// The start of the line that hasn't ended: no line feed is in it.
    held: Vec<u8>,
}

impl Rows {
    /// The rows of a stream of which nothing came yet.
    pub fn new(paths: Paths) -> Rows {
        Rows {
            paths,
            lines: 0,
            held: Vec::new(),
        }
    }

    /// The rows of the lines that end in the piece.
    pub fn feed<T: Text + ?Sized>(&mut self, piece: &T) -> Result<Vec<u8>, Error> {
        let (piece, held) = (piece.bytes(), self.held.len());
        self.held
            .try_reserve(piece.len())
            .map_err(|_| Error::NoMemory)?;
        self.held.extend_from_slice(piece);
        let Some(last) = piece.iter().rposition(|&byte| byte == b'\n') else {
            return Ok(Vec::new());
        };
        let ended = &self.held[..=held + last];
        let made = rows(ended, &self.paths, self.lines);
        if made.is_ok() {
            self.lines += count_bytes(ended, |byte| byte == b'\n') as u64;
            self.held.drain(..=held + last);
        } else {
            self.held.truncate(held);
        }
        made
    }

    /// The row of the last line, where no line feed ended it. A new stream begins then, whose lines are numbered
    /// from 1.
    pub fn finish(&mut self) -> Result<Vec<u8>, Error> {
        let made = rows(&self.held, &self.paths, self.lines)?;
        self.held.clear();
        self.lines = 0;
        Ok(made)
    }

    /// How many lines have ended.
    pub fn lines(&self) -> u64 {
        self.lines
    }
}
