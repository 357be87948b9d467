//! Paths of keys and indexes.
use crate::{get_many, Error};
use std::fmt::{self, Write};
use std::str::FromStr;

/// A step of a path: a key, or an index from 0.
#[derive(Clone, Copy, Debug, PartialEq, Eq, Hash)]
pub enum Node<'k> {
    /// The key of a member, as it reads unescaped.
    Key(&'k str),
    /// The index of an element.
    Index(usize),
}

impl<'k> From<&'k str> for Node<'k> {
    fn from(key: &'k str) -> Self {
        Node::Key(key)
    }
}

impl<'k> From<&'k String> for Node<'k> {
    fn from(key: &'k String) -> Self {
        Node::Key(key)
    }
}

impl From<usize> for Node<'_> {
    fn from(index: usize) -> Self {
        Node::Index(index)
    }
}

/// A path of keys and indexes, kept as the JSON array that says it: two are equal where these are, byte for
/// byte. A look-up refuses one of more than 255 nodes.
///
/// ```
/// use jihluka::{path, Path};
/// assert_eq!(path!["tags", 1].to_string(), r#"["tags",1]"#);
/// assert_eq!(r#"["tags",1]"#.parse(), Ok(path!["tags", 1]));
/// let mut path = Path::new();
/// path.push("tags");
/// path.push(1);
/// assert_eq!(path, path!["tags", 1]);
/// ```
#[derive(Clone, Debug, PartialEq, Eq, Hash)]
pub struct Path(String);

impl Path {
    /// The path of the whole value.
    pub fn new() -> Path {
        Path("[]".into())
    }

    /// Goes a step further.
    pub fn push<'k>(&mut self, node: impl Into<Node<'k>>) {
        self.0.pop();
        if !self.0.trim_end().ends_with('[') {
            self.0.push(',');
        }
        match node.into() {
            Node::Key(key) => push_string(&mut self.0, key),
            Node::Index(index) => self.0.push_str(&index.to_string()),
        }
        self.0.push(']');
    }

    /// The JSON array that says it.
    pub fn as_str(&self) -> &str {
        &self.0
    }
}

fn push_string(out: &mut String, key: &str) {
    out.push('"');
    for c in key.chars() {
        match c {
            '"' | '\\' => out.extend(['\\', c]),
            '\0'..='\x1f' => write!(out, "\\u{:04x}", c as u32).unwrap(), // to a String, which takes all
            _ => out.push(c),
        }
    }
    out.push('"');
}

impl Default for Path {
    fn default() -> Self {
        Path::new()
    }
}

impl<'k> FromIterator<Node<'k>> for Path {
    fn from_iter<I: IntoIterator<Item = Node<'k>>>(nodes: I) -> Self {
        let mut path = Path::new();
        nodes.into_iter().for_each(|node| path.push(node));
        path
    }
}

/// A JSON array on one line, as `["tags",1]`.
impl FromStr for Path {
    type Err = Error;

    fn from_str(text: &str) -> Result<Path, Error> {
        let text = text.trim_matches([' ', '\t', '\r', '\n']);
        // What ends a line would make two of it, and no line is no path.
        if text.is_empty() || text.contains('\n') {
            return Err(Error::BadPath(0));
        }
        let path = Path(text.into());
        Paths::new([&path]).map(|_| path)
    }
}

impl fmt::Display for Path {
    fn fmt(&self, f: &mut fmt::Formatter<'_>) -> fmt::Result {
        f.write_str(&self.0)
    }
}

impl AsRef<Path> for Path {
    fn as_ref(&self) -> &Path {
        self
    }
}

/// A path by its nodes: `path!["tags", 1]`, `path![key, index]`, and `path![]` of the whole value.
#[macro_export]
macro_rules! path {
    ($($node:expr),* $(,)?) => {{
        #[allow(unused_mut)]
        let mut path = $crate::Path::new();
        $(path.push($node);)*
        path
    }};
}

/// Paths that are looked up again and again, made ready and judged once.
///
/// ```
/// use jihluka::{get_many, path, Paths};
/// let fields = Paths::new([path!["level"], path!["ms"]])?;
/// for record in [r#"{"level":"info","ms":3}"#, r#"{"ms":4}"#] {
///     let found = get_many(record, &fields)?;
///     assert!(found[1].is_some());
/// }
/// # Ok::<(), jihluka::Error>(())
/// ```
#[derive(Clone, Debug, PartialEq, Eq, Hash)]
pub struct Paths {
    pub(crate) lines: String,
    pub(crate) count: usize,
}

impl Paths {
    /// Paths that are alike so far all go on with a key, or all with an index: `["a"]` and `[0]` don't go
    /// together, and the second of them is an [`Error::BadPath`], as one of more than 255 nodes is.
    pub fn new<I: IntoIterator>(paths: I) -> Result<Paths, Error>
    where
        I::Item: AsRef<Path>,
    {
        let mut made = Paths {
            lines: String::new(),
            count: 0,
        };
        for path in paths {
            made.lines += path.as_ref().as_str();
            made.lines.push('\n');
            made.count += 1;
        }
        match get_many("0", &made) {
            Ok(_) | Err(Error::Document(_)) => Ok(made),
            Err(error) => Err(error),
        }
    }

    /// How many there are.
    pub fn len(&self) -> usize {
        self.count
    }

    /// Whether there is none.
    pub fn is_empty(&self) -> bool {
        self.count == 0
    }
}
