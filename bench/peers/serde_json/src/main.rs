//! The program's contract by serde_json: path lines, an empty line and a document come in, and
//! `LEN TEXT` or `-` goes out for each path. One walk serves all paths, and ends with the last of
//! them. The status is 1 where the document is refused; then the reason goes to standard error.
use serde::de::{DeserializeSeed, Deserializer, Error as _, IgnoredAny, MapAccess, SeqAccess, Visitor};
use serde::Deserialize;
use serde_json::value::RawValue;
use serde_json::Value;
use std::cell::Cell;
use std::collections::{BTreeMap, HashMap};
use std::error::Error;
use std::fmt;
use std::io::{Read, Write};
use std::process::exit;

/// The paths as a tree. No path goes on where another one ends.
#[derive(Default)]
struct Node {
    members: HashMap<String, Node>,
    elements: BTreeMap<u64, Node>,
    /// The numbers of the paths that end here.
    paths: Vec<usize>,
    /// Of equal keys the first one counts.
    seen: Cell<bool>,
}

impl Node {
    /// Puts a path into the tree.
    fn add_path(&mut self, line: &str, number: usize) -> Result<(), Box<dyn Error>> {
        let steps: Vec<Value> = serde_json::from_str(line)?;
        let mut node = self;
        for step in steps {
            node = match step {
                Value::String(key) => node.members.entry(key).or_default(),
                step => {
                    let index = step.as_u64().ok_or("a step is no key and no index")?;
                    node.elements.entry(index).or_default()
                }
            };
        }
        node.paths.push(number);
        Ok(())
    }
}

struct Walk<'text> {
    texts: Vec<Option<&'text str>>,
    /// How many of them are still to be found.
    missing: usize,
}

impl Walk<'_> {
    /// Writes the report, and gives the status.
    fn report(&self) -> i32 {
        let mut report = String::new();
        for found in &self.texts {
            match found {
                Some(text) => report.extend([&text.len().to_string(), " ", text, "\n"]),
                None => report.push_str("-\n"),
            }
        }
        let mut out = std::io::stdout();
        let written = out.write_all(report.as_bytes()).and_then(|()| out.flush());
        if written.is_ok() { 0 } else { 6 }
    }

    /// Ends the process with the last text that is found. Only an error leaves a container early in
    /// serde, and serde_json counts all lines before an error, once at each level.
    fn end_with_last(&self) {
        if self.missing == 0 {
            exit(self.report());
        }
    }
}

/// The value at a node of the tree.
struct Visit<'walk, 'text> {
    walk: &'walk mut Walk<'text>,
    node: &'walk Node,
}

impl<'text> DeserializeSeed<'text> for Visit<'_, 'text> {
    type Value = ();

    fn deserialize<D: Deserializer<'text>>(self, value: D) -> Result<(), D::Error> {
        self.node.seen.set(true);
        if !self.node.members.is_empty() {
            return value.deserialize_map(self);
        } else if !self.node.elements.is_empty() {
            return value.deserialize_seq(self);
        }
        let text = <&RawValue>::deserialize(value)?.get();
        for &path in &self.node.paths {
            self.walk.texts[path] = Some(text);
        }
        self.walk.missing -= self.node.paths.len();
        Ok(())
    }
}

impl<'text> Visitor<'text> for Visit<'_, 'text> {
    type Value = ();

    fn expecting(&self, out: &mut fmt::Formatter) -> fmt::Result {
        out.write_str("the container that a path goes into")
    }

    fn visit_map<A: MapAccess<'text>>(self, mut object: A) -> Result<(), A::Error> {
        while let Some(found) = object.next_key_seed(Key(self.node))? {
            match found {
                Some(node) if !node.seen.get() => {
                    object.next_value_seed(Visit { walk: &mut *self.walk, node })?;
                    self.walk.end_with_last();
                }
                _ => drop(object.next_value::<IgnoredAny>()?),
            }
        }
        Ok(())
    }

    fn visit_seq<A: SeqAccess<'text>>(self, mut array: A) -> Result<(), A::Error> {
        let mut place = 0;
        for (&index, node) in &self.node.elements {
            while place < index && array.next_element::<IgnoredAny>()?.is_some() {
                place += 1;
            }
            let visit = Visit { walk: &mut *self.walk, node };
            if array.next_element_seed(visit)?.is_none() {
                return Err(A::Error::custom("an index is past the end"));
            }
            self.walk.end_with_last();
            place += 1;
        }
        while array.next_element::<IgnoredAny>()?.is_some() {}
        Ok(())
    }
}

/// A key, and the node that it leads to, if it leads to one.
struct Key<'node>(&'node Node);

impl<'text, 'node> DeserializeSeed<'text> for Key<'node> {
    type Value = Option<&'node Node>;

    fn deserialize<D: Deserializer<'text>>(self, key: D) -> Result<Self::Value, D::Error> {
        key.deserialize_str(self)
    }
}

impl<'node> Visitor<'_> for Key<'node> {
    type Value = Option<&'node Node>;

    fn expecting(&self, out: &mut fmt::Formatter) -> fmt::Result {
        out.write_str("a key")
    }

    fn visit_str<E>(self, key: &str) -> Result<Self::Value, E> {
        Ok(self.0.members.get(key))
    }
}

fn answer(input: &[u8]) -> Result<i32, Box<dyn Error>> {
    // Like the program, it takes UTF-8 alone.
    let mut rest = std::str::from_utf8(input)?;
    let mut root = Node::default();
    let mut paths = 0;
    loop {
        let (line, after) = rest.split_once('\n').unwrap_or((rest, ""));
        rest = after;
        if line.is_empty() {
            break;
        }
        root.add_path(line, paths)?;
        paths += 1;
    }

    let mut walk = Walk { texts: vec![None; paths], missing: paths };
    let mut document = serde_json::Deserializer::from_str(rest);
    Visit { walk: &mut walk, node: &root }.deserialize(&mut document)?;
    Ok(walk.report())
}

fn main() {
    let mut input = Vec::new();
    if std::io::stdin().read_to_end(&mut input).is_err() {
        exit(5);
    }
    exit(answer(&input).unwrap_or_else(|error| {
        eprintln!("{error}");
        1
    }))
}
