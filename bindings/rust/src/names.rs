//! Queries whose placeholders have names.

use crate::bytes::Bytes;
use crate::codes::Error;
use crate::modes::{Mode, Spelling};
use crate::packets::PacketReader;
use crate::sending::{send_in, Road};
use crate::sets::ParameterSets;
use crate::values::Value;
use std::error;
use std::fmt;

/// A query whose placeholders have names, as `:most`. Sets have values by their order, so what is
/// sent is [`NamedQuery::text`]: the query with a question mark for each name.
///
/// ```
/// use mysql_session::{send, Bytes, NamedQuery, ParameterSets, Road};
///
/// # fn main() -> Result<(), Box<dyn std::error::Error>> {
/// let query = NamedQuery::new(b"SELECT * FROM goods WHERE price < :most AND name <> :not")?;
/// assert_eq!(query.text(), b"SELECT * FROM goods WHERE price < ? AND name <> ?");
/// let mut sets = ParameterSets::new()?;
/// sets.add_named(&query, &[("not", "tea".into()), ("most", 5.into())])?;
///
/// let mut out = Bytes::new()?;
/// send(&sets, query.text(), Road::Text, 1, 1 << 24, &mut out)?;
/// assert_eq!(&out[5..], b"SELECT * FROM goods WHERE price < 5 AND name <> 'tea'");
/// # Ok(())
/// # }
/// ```
#[derive(Clone, PartialEq, Eq, Hash)]
pub struct NamedQuery {
    text: Vec<u8>,
    names: Vec<String>,
}

impl NamedQuery {
    /// A query at a server in the default mode. [`NamedQuery::new_in`] takes the mode.
    ///
    /// A name is a colon, a small letter or `_`, and small letters, digits and `_` behind it. None is
    /// in a string, a quoted name or a comment.
    ///
    /// # Errors
    /// [`Code::MIXED`] where the query has question marks too, [`Code::REFUSED_TOO_MANY_PLACES`],
    /// [`Code::MEMORY`].
    ///
    /// [`Code::MIXED`]: crate::Code::MIXED
    /// [`Code::REFUSED_TOO_MANY_PLACES`]: crate::Code::REFUSED_TOO_MANY_PLACES
    /// [`Code::MEMORY`]: crate::Code::MEMORY
    pub fn new(query: &[u8]) -> Result<NamedQuery, Error> {
        NamedQuery::new_in(query, Mode::default())
    }

    /// A query at a server in this mode, which says where its strings end.
    ///
    /// # Errors
    /// Those of [`NamedQuery::new`].
    pub fn new_in(query: &[u8], mode: Mode) -> Result<NamedQuery, Error> {
        let text = prepared_text(query, mode)?;
        let names = names_between(query, &text);
        Ok(NamedQuery { text, names })
    }

    /// The query as it is sent and prepared: with a question mark for each name.
    pub fn text(&self) -> &[u8] {
        &self.text
    }

    /// The name of each placeholder, in their order; none of a query with question marks.
    pub fn names(&self) -> &[String] {
        &self.names
    }
}

impl fmt::Debug for NamedQuery {
    fn fmt(&self, formatter: &mut fmt::Formatter<'_>) -> fmt::Result {
        formatter
            .debug_struct("NamedQuery")
            .field("text", &crate::readable::Readable(&self.text))
            .field("names", &self.names)
            .finish()
    }
}

/// The text of the prepare that a send without sets begins with.
fn prepared_text(query: &[u8], mode: Mode) -> Result<Vec<u8>, Error> {
    let limit = query.len().saturating_mul(2).saturating_add(5).max(1 << 24);
    let (sets, mut out) = (ParameterSets::new()?, Bytes::new()?);
    let (road, spelling) = (Road::Execute, Spelling::Quoted);
    send_in(&sets, query, road, 1, limit, mode, spelling, &mut out)?;
    let mut reader = PacketReader::new(0, limit)?;
    let payload = reader.advance(&mut &out[..])?;
    // The first byte is the command's.
    Ok(payload.expect("a prepare is sent whole")[1..].to_vec())
}

/// The names of a query, by its text with question marks for them.
fn names_between(query: &[u8], text: &[u8]) -> Vec<String> {
    let (mut names, mut left) = (Vec::new(), query);
    for byte in text {
        let (first, behind) = left.split_first().expect("the query goes on");
        left = behind;
        if first != byte {
            let end = behind.iter().position(|byte| !is_of_name(*byte));
            let (name, behind) = behind.split_at(end.unwrap_or(behind.len()));
            names.push(String::from_utf8_lossy(name).into_owned());
            left = behind;
        }
    }
    names
}

fn is_of_name(byte: u8) -> bool {
    byte.is_ascii_lowercase() || byte.is_ascii_digit() || byte == b'_'
}

impl ParameterSets {
    /// Puts one more set behind the whole ones: the values of a query's names, in the order of its
    /// placeholders. Names that the query doesn't have are passed over. Of a name that is given more
    /// than once the first value counts. Of a query with question marks the set has no values.
    ///
    /// # Errors
    /// [`NameError::NoValue`] of the first name that isn't given; what [`ParameterSets::add`]
    /// answers. Nothing has changed then.
    pub fn add_named(
        &mut self,
        query: &NamedQuery,
        values: &[(&str, Value<'_>)],
    ) -> Result<(), NameError> {
        let value_of = |name: &String| {
            let found = values.iter().find(|(given, _)| given == name);
            found
                .map(|(_, value)| *value)
                .ok_or(NameError::NoValue { name: name.clone() })
        };
        let in_order: Vec<Value<'_>> =
            query.names.iter().map(value_of).collect::<Result<_, _>>()?;
        Ok(self.add(&in_order)?)
    }
}

/// Why a set by names isn't added.
#[derive(Clone, Debug, PartialEq, Eq, Hash)]
pub enum NameError {
    /// No value is given for a name of the query.
    NoValue {
        /// The name, without its colon.
        name: String,
    },
    /// The set of the values is refused.
    Refused(Error),
}

impl fmt::Display for NameError {
    fn fmt(&self, formatter: &mut fmt::Formatter<'_>) -> fmt::Result {
        match self {
            NameError::NoValue { name } => write!(formatter, "no value is given for :{name}"),
            NameError::Refused(error) => error.fmt(formatter),
        }
    }
}

impl error::Error for NameError {}

impl From<Error> for NameError {
    fn from(error: Error) -> NameError {
        NameError::Refused(error)
    }
}
