//! Paths that are kept from call to call.
use crate::error::{judge, Error};
use crate::outcome::told;
use crate::text::part_of;
use crate::{raw, Outcome, Paths, Span, Text, Valid};
use std::fmt;
use std::iter::FusedIterator;
use std::slice;

/// Which member counts where several members of one object have a key of a path. Keys are equal as texts, with
/// their escapes undone.
///
/// Under [`Keys::Last`] and [`Keys::Refuse`] an object in which a key is looked for is read to its end.
#[derive(Clone, Copy, Debug, Default, PartialEq, Eq, Hash)]
pub enum Keys {
    /// The first one, as for [`get_many`](crate::get_many).
    #[default]
    First,
    /// The last one.
    Last,
    /// None: a second one is the error [`Code::DUPLICATE_KEY`](crate::Code::DUPLICATE_KEY) where its key begins.
    Refuse,
}

/// Paths that are kept from call to call, so that their lines are read once, with the room that a walk along them
/// takes, which the next walk uses again.
///
/// It changes while it is asked, so each thread has one of its own: it may be sent to another thread, but is
/// neither shared nor cloned. What it takes it gives back when it is dropped.
///
/// ```
/// use jihluka::{path, Code, Finder, Keys, Paths};
/// let fields = Paths::new([path!["level"], path!["ms"]])?;
/// let mut finder = Finder::new(&fields, Keys::First)?;
/// let mut sum = 0.0;
/// for record in [r#"{"level":"info","ms":3}"#, r#"{"ms":4.5,"ms":0}"#] {
///     let found = finder.get_many(record)?;
///     sum += found[1].and_then(|ms| ms.parse::<f64>().ok()).unwrap_or(0.0);
/// }
/// assert_eq!(sum, 7.5);
///
/// let twice = r#"{"ms":4.5,"ms":0}"#;
/// let mut last = Finder::new(&fields, Keys::Last)?;
/// assert_eq!(last.get_many(twice)?, [None, Some("0")]);
/// let mut alone = Finder::new(&fields, Keys::Refuse)?;
/// let fault = alone.get_many(twice).unwrap_err().fault().unwrap();
/// assert_eq!((fault.code, fault.offset), (Code::DUPLICATE_KEY, 10));
/// # Ok::<(), jihluka::Error>(())
/// ```
///
/// ```compile_fail,E0277
/// fn shared_by_threads<T: Sync>() {}
/// shared_by_threads::<jihluka::Finder>();
/// ```
pub struct Finder {
    kept: raw::Kept,
    keys: Keys,
    /// One for each path.
    spans: Vec<Span>,
    /// Likewise, once each path was asked for by itself.
    outcomes: Vec<raw::Outcome>,
}

// SAFETY: what is kept is memory of malloc that nobody else has, and one call at a time uses it, which
// `&mut self` says. No call asks which thread it is on.
unsafe impl Send for Finder {}

impl Finder {
    /// Keeps the paths, for walks under a rule for equal keys.
    ///
    /// It is an [`Error::NoMemory`] where there is too little memory, and no other, as the paths were judged when
    /// they were made.
    ///
    /// ```
    /// use jihluka::{path, Finder, Keys, Paths};
    /// let finder = Finder::new(&Paths::new([path!["id"]])?, Keys::default())?;
    /// assert_eq!((finder.len(), finder.keys()), (1, Keys::First));
    /// # Ok::<(), jihluka::Error>(())
    /// ```
    pub fn new(paths: &Paths, keys: Keys) -> Result<Finder, Error> {
        let lines = &paths.lines;
        let rule = match keys {
            Keys::First => raw::KEYS_FIRST,
            Keys::Last => raw::KEYS_LAST,
            Keys::Refuse => raw::KEYS_REFUSE,
        };
        let (mut kept, mut fault) = (raw::Kept::NONE, raw::Fault::default());
        // SAFETY: the lines are borrowed while the call runs, and the two cells are this function's own.
        let status = unsafe {
            raw::jihluka_paths_new(lines.as_ptr(), lines.len(), rule, &mut kept, &mut fault)
        };
        judge(status, fault)?;
        Ok(Finder {
            spans: vec![Span::default(); kept.count],
            outcomes: Vec::new(),
            kept,
            keys,
        })
    }

    /// How many paths there are.
    pub fn len(&self) -> usize {
        self.spans.len()
    }

    /// Whether there is none.
    pub fn is_empty(&self) -> bool {
        self.spans.is_empty()
    }

    /// Which of equal keys counts.
    pub fn keys(&self) -> Keys {
        self.keys
    }

    /// The texts of the values to which the paths lead, in their order, as [`get_many`](crate::get_many) gives
    /// them, but that the rule says which of equal keys counts.
    ///
    /// Its errors are those of `get_many`, and by [`Keys::Refuse`] a key that comes twice. After one the finder is
    /// as it was.
    ///
    /// ```
    /// use jihluka::{path, Finder, Keys, Paths};
    /// let paths = Paths::new([path!["tags", 1], path!["exp"]])?;
    /// let mut finder = Finder::new(&paths, Keys::First)?;
    /// assert_eq!(finder.get_many(r#"{"user":"ada","tags":["a","b"]}"#)?, [Some(r#""b""#), None]);
    /// # Ok::<(), jihluka::Error>(())
    /// ```
    pub fn get_many<'t, T: Text + ?Sized>(
        &mut self,
        json: &'t T,
    ) -> Result<Vec<Option<&'t T::Part>>, Error> {
        self.find(json).map(Iterator::collect)
    }

    /// As [`get_many`](Finder::get_many), but the values come one after the other, out of a room that the finder
    /// keeps: no vector is made. By [`Keys::First`] a call takes memory only where it needs more than each one
    /// before.
    ///
    /// ```
    /// use jihluka::{as_u64, path, Finder, Keys, Paths};
    /// let mut finder = Finder::new(&Paths::new([path!["in"], path!["out"]])?, Keys::First)?;
    /// let mut sum = 0;
    /// for record in [r#"{"in":3,"out":4}"#, r#"{"out":5}"#] {
    ///     for bytes in finder.find(record)?.flatten() {
    ///         sum += as_u64(bytes)?;
    ///     }
    /// }
    /// assert_eq!(sum, 12);
    /// # Ok::<(), jihluka::Error>(())
    /// ```
    pub fn find<'f, 't, T: Text + ?Sized>(
        &'f mut self,
        json: &'t T,
    ) -> Result<Found<'f, 't, T>, Error> {
        self.look_up(raw::jihluka_get_many_with, json)
    }

    /// Where each of the paths leads, in their order, as [`get_each`](crate::get_each) tells it, but that the rule says
    /// which of equal keys counts.
    ///
    /// ```
    /// use jihluka::{path, Code, Finder, Keys, Outcome, Paths};
    /// let paths = Paths::new([path!["id"], path!["tags", 2]])?;
    /// let mut finder = Finder::new(&paths, Keys::Refuse)?;
    /// assert_eq!(
    ///     finder.get_each(r#"{"id":7,"tags":["a"],"id":8}"#)?,
    ///     [Outcome::Fails(Code::DUPLICATE_KEY, 21), Outcome::Fails(Code::GET_INDEX_OUT_OF_ARRAY, 19)],
    /// );
    /// # Ok::<(), jihluka::Error>(())
    /// ```
    pub fn get_each<'t, T: Text + ?Sized>(
        &mut self,
        json: &'t T,
    ) -> Result<Vec<Outcome<&'t T::Part>>, Error> {
        self.tell_each(raw::jihluka_get_each_with, json)
    }

    fn tell_each<'t, T: Text + ?Sized>(
        &mut self,
        call: raw::GetEachWith,
        json: &'t T,
    ) -> Result<Vec<Outcome<&'t T::Part>>, Error> {
        let (text, mut fault) = (json.bytes(), raw::Fault::default());
        self.outcomes
            .resize(self.spans.len(), raw::Outcome::default());
        // SAFETY: as in `look_up`, with as many outcomes as is said.
        let status = unsafe {
            call(
                text.as_ptr(),
                text.len(),
                &mut self.kept,
                self.outcomes.as_mut_ptr(),
                self.outcomes.len(),
                &mut fault,
            )
        };
        judge(status, fault)?;
        Ok(self
            .outcomes
            .iter()
            .map(|&outcome| told(json, outcome))
            .collect())
    }

    fn look_up<'f, 't, T: Text + ?Sized>(
        &'f mut self,
        call: raw::GetManyWith,
        json: &'t T,
    ) -> Result<Found<'f, 't, T>, Error> {
        let (text, mut fault) = (json.bytes(), raw::Fault::default());
        // SAFETY: the slice is borrowed while the call runs, what is kept is as the last call left it, there are as
        // many spans as is said, and they and the cell are no one else's. A call without a check comes from `Valid`
        // alone, whose text was judged.
        let status = unsafe {
            call(
                text.as_ptr(),
                text.len(),
                &mut self.kept,
                self.spans.as_mut_ptr(),
                self.spans.len(),
                &mut fault,
            )
        };
        judge(status, fault)?;
        Ok(Found {
            json,
            spans: self.spans.iter(),
        })
    }
}

impl Drop for Finder {
    fn drop(&mut self) {
        // SAFETY: what is kept is as the last call left it, and no call comes after this one.
        unsafe { raw::jihluka_paths_free(&mut self.kept) }
    }
}

impl fmt::Debug for Finder {
    fn fmt(&self, f: &mut fmt::Formatter<'_>) -> fmt::Result {
        f.debug_struct("Finder")
            .field("len", &self.len())
            .field("keys", &self.keys)
            .finish_non_exhaustive()
    }
}

impl<'t, T: Text + ?Sized> Valid<'t, T> {
    /// As [`Finder::get_many`], of a text that is validated already. By [`Keys::First`] each path is followed by
    /// itself; by another rule they are followed together, as there.
    ///
    /// ```
    /// use jihluka::{path, validate, Finder, Keys, Paths};
    /// let mut finder = Finder::new(&Paths::new([path!["user"]])?, Keys::First)?;
    /// let document = validate(r#"{"user":"ada"}"#)?;
    /// assert_eq!(document.get_many_with(&mut finder)?, [Some(r#""ada""#)]);
    /// # Ok::<(), jihluka::Error>(())
    /// ```
    pub fn get_many_with(self, finder: &mut Finder) -> Result<Vec<Option<&'t T::Part>>, Error> {
        self.find_with(finder).map(Iterator::collect)
    }

    /// As [`Finder::find`], of a text that is validated already, as [`get_many_with`](Valid::get_many_with). By [`Keys::First`] it
    /// takes no memory.
    pub fn find_with<'f>(self, finder: &'f mut Finder) -> Result<Found<'f, 't, T>, Error> {
        finder.look_up(raw::jihluka_get_many_with_unchecked, self.text())
    }

    /// As [`Finder::get_each`], of a text that is validated already.
    pub fn get_each_with(self, finder: &mut Finder) -> Result<Vec<Outcome<&'t T::Part>>, Error> {
        finder.tell_each(raw::jihluka_get_each_with_unchecked, self.text())
    }
}

/// The texts of the values that a [`Finder`] found, in the order of its paths, and `None` for one whose key an
/// object with members lacks: what [`Finder::find`] gives.
///
/// The finder is borrowed for as long as this is used, but what comes is borrowed from the text alone.
#[derive(Debug)]
pub struct Found<'f, 't, T: ?Sized> {
    json: &'t T,
    spans: slice::Iter<'f, Span>,
}

/// A clone goes on from where this one is.
impl<T: ?Sized> Clone for Found<'_, '_, T> {
    fn clone(&self) -> Self {
        Found {
            json: self.json,
            spans: self.spans.clone(),
        }
    }
}

impl<'t, T: Text + ?Sized> Iterator for Found<'_, 't, T> {
    type Item = Option<&'t T::Part>;

    fn next(&mut self) -> Option<Self::Item> {
        self.spans.next().map(|&span| part_of(self.json, span))
    }

    fn size_hint(&self) -> (usize, Option<usize>) {
        self.spans.size_hint()
    }
}

impl<T: Text + ?Sized> ExactSizeIterator for Found<'_, '_, T> {}
impl<T: Text + ?Sized> FusedIterator for Found<'_, '_, T> {}
