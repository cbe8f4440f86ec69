// SPDX-License-Identifier: MIT
//! Names as text (RFC 1035 section 5.1) and in wire form (section 3.1).

use std::borrow::Cow;
use std::fmt::{self, Write};
use std::hash::{Hash, Hasher};
use std::str::{Bytes, FromStr};

use crate::Error;

/// The maximum number of octets in a label and in a name (RFC 1035 section 2.3.4).
const LABEL_MOST: usize = 63;
const NAME_MOST: usize = 255;

/// A valid, complete name in wire form, without compression pointers. A name is parsed from text,
/// in which the last dot is optional, or borrows octets, such as those of a question.
///
/// Two names are equal if they differ only in the case of ASCII letters (RFC 4343).
///
/// ```
/// use rrcache::Name;
/// let name: Name = "www.Example.".parse()?;
/// assert_eq!(name, Name::from_wire(b"\x03www\x07example\x00")?);
/// assert_eq!(name.to_string(), "www.Example.");
/// # Ok::<(), rrcache::Error>(())
/// ```
#[derive(Clone)]
pub struct Name<'a> {
    wire: Cow<'a, [u8]>,
}

impl<'a> Name<'a> {
    /// The root.
    pub const ROOT: Name<'static> = Name { wire: Cow::Borrowed(&[0]) };

    /// Makes a name from its wire form. Returns [`BadName`](Error::BadName) if the octets are not
    /// exactly one name.
    pub fn from_wire(octets: &'a [u8]) -> Result<Name<'a>, Error> {
        match Name::from_front(octets)? {
            (name, []) => Ok(name),
            _ => Err(Error::BadName),
        }
    }

    /// Makes a name from the beginning of `octets`, and returns the name and the octets that follow
    /// it. In this way, a caller can read the name of a question, which has no compression pointer.
    /// Returns [`BadName`](Error::BadName) if the octets do not begin with a name.
    ///
    /// ```
    /// use rrcache::Name;
    /// let (name, rest) = Name::from_front(b"\x03www\x07example\x00\x00\x01\x00\x01")?;
    /// assert_eq!((name.to_string().as_str(), rest), ("www.example.", &[0, 1, 0, 1][..]));
    /// # Ok::<(), rrcache::Error>(())
    /// ```
    pub fn from_front(octets: &'a [u8]) -> Result<(Name<'a>, &'a [u8]), Error> {
        let mut end = 0;
        loop {
            match octets.get(end) {
                Some(0) if end < NAME_MOST => break,
                Some(&size) if (1..=LABEL_MOST).contains(&size.into()) => end += 1 + size as usize,
                _ => return Err(Error::BadName),
            }
        }
        let (wire, rest) = octets.split_at(end + 1);
        Ok((Name::trusted(wire), rest))
    }

    /// Makes a name from octets that the library returned.
    pub(crate) fn trusted(wire: &'a [u8]) -> Name<'a> {
        Name { wire: Cow::Borrowed(wire) }
    }

    /// Returns the wire form of the name.
    pub fn wire(&self) -> &[u8] {
        &self.wire
    }

    /// Returns the labels of the name from left to right, without the root label.
    pub fn labels(&self) -> impl Iterator<Item = &[u8]> {
        let mut rest: &[u8] = &self.wire;
        std::iter::from_fn(move || {
            let (&size, behind) = rest.split_first()?;
            let (label, next) = behind.split_at(size.into());
            rest = next;
            (size != 0).then_some(label)
        })
    }

    /// Returns a copy of the name that owns its octets.
    pub fn into_owned(self) -> Name<'static> {
        Name { wire: Cow::Owned(self.wire.into_owned()) }
    }
}

/// Reads an escape after its backslash: for \DDD, the octet with this number; otherwise, the next
/// octet.
fn escaped(octets: &mut Bytes<'_>) -> Result<u8, Error> {
    let first = octets.next().ok_or(Error::BadName)?;
    if !first.is_ascii_digit() {
        return if first.is_ascii() { Ok(first) } else { Err(Error::BadName) };
    }
    let mut number = u16::from(first - b'0');
    for _ in 0..2 {
        let digit = octets.next().filter(u8::is_ascii_digit).ok_or(Error::BadName)?;
        number = number * 10 + u16::from(digit - b'0');
    }
    u8::try_from(number).map_err(|_| Error::BadName)
}

/// Ends the label whose length octet is at `start`.
fn end_label(wire: &mut [u8], start: usize) -> Result<(), Error> {
    let size = wire.len() - start - 1;
    if !(1..=LABEL_MOST).contains(&size) {
        return Err(Error::BadName);
    }
    wire[start] = size as u8;
    Ok(())
}

impl FromStr for Name<'static> {
    type Err = Error;

    /// Parses the text of a name, in which the last dot is optional. Returns
    /// [`BadName`](Error::BadName) if a label is empty or too long, the name is too long, a
    /// backslash escapes nothing, or a character is not ASCII: use A-labels for such names (RFC
    /// 5890).
    fn from_str(text: &str) -> Result<Name<'static>, Error> {
        if text == "." {
            return Ok(Name::ROOT);
        }
        let mut wire = vec![0];
        let mut start = 0;
        let mut octets = text.bytes();
        while let Some(octet) = octets.next() {
            match octet {
                b'.' => {
                    end_label(&mut wire, start)?;
                    start = wire.len();
                    wire.push(0);
                }
                b'\\' => wire.push(escaped(&mut octets)?),
                _ if octet.is_ascii() => wire.push(octet),
                _ => return Err(Error::BadName),
            }
        }
        if start == 0 || wire.len() > start + 1 {
            end_label(&mut wire, start)?;
            wire.push(0);
        }
        match wire.len() {
            ..=NAME_MOST => Ok(Name { wire: Cow::Owned(wire) }),
            _ => Err(Error::BadName),
        }
    }
}

impl fmt::Display for Name<'_> {
    /// Writes the text of the name, with its last dot.
    fn fmt(&self, f: &mut fmt::Formatter<'_>) -> fmt::Result {
        let mut text = String::new();
        for label in self.labels() {
            for &octet in label {
                match octet {
                    b'.' | b'\\' => write!(text, "\\{}", char::from(octet))?,
                    b'!'..=b'~' => text.push(octet.into()),
                    _ => write!(text, "\\{octet:03}")?,
                }
            }
            text.push('.');
        }
        f.pad(if text.is_empty() { "." } else { &text })
    }
}

impl fmt::Debug for Name<'_> {
    fn fmt(&self, f: &mut fmt::Formatter<'_>) -> fmt::Result {
        write!(f, "Name({self})")
    }
}

/// Length octets are smaller than the octets of letters, so all octets can be compared in the same
/// way.
impl PartialEq for Name<'_> {
    fn eq(&self, other: &Name<'_>) -> bool {
        self.wire.eq_ignore_ascii_case(&other.wire)
    }
}

impl Eq for Name<'_> {}

impl Hash for Name<'_> {
    fn hash<H: Hasher>(&self, state: &mut H) {
        for octet in self.wire.iter() {
            state.write_u8(octet.to_ascii_lowercase());
        }
    }
}

#[cfg(test)]
mod tests {
    use super::*;

    fn wire_of(text: &str) -> Result<Vec<u8>, Error> {
        text.parse::<Name>().map(|it| it.wire().to_vec())
    }

    #[test]
    fn texts_have_their_wire_form() {
        assert_eq!(wire_of(".").unwrap(), b"\0");
        assert_eq!(wire_of("example").unwrap(), b"\x07example\0");
        assert_eq!(wire_of("www.Example.").unwrap(), b"\x03www\x07Example\0");
        assert_eq!(wire_of(r"a\.b\\.\000\255c.").unwrap(), b"\x04a.b\\\x03\0\xffc\0");
    }

    #[test]
    fn what_is_no_text_of_a_name_is_refused() {
        for text in ["", "..", ".a", "a..b", "a\\", "a\\25", "a\\256", "a\\1x2", "é", "a\\é"] {
            assert_eq!(wire_of(text), Err(Error::BadName), "{text}");
        }
    }

    /// A label has 63 octets at most, and a name 255: three labels of 63 take 192 with the octets
    /// of their lengths, and the root's takes one, so 61 are left, and one of 62 is too long.
    #[test]
    fn sizes_have_their_limits() {
        let label = "a".repeat(63);
        assert!(wire_of(&label).is_ok());
        assert_eq!(wire_of(&"a".repeat(64)), Err(Error::BadName));
        let three = [label.as_str(); 3].join(".");
        assert_eq!(wire_of(&format!("{three}.{}", &label[..61])).unwrap().len(), 255);
        assert_eq!(wire_of(&format!("{three}.{}", &label[..62])), Err(Error::BadName));
    }

    #[test]
    fn octets_that_are_no_name_are_refused() {
        let long = [&[63; 64][..]; 4].concat();
        let whole = [&[1; 254][..], &[0]].concat();
        assert!(Name::from_wire(&whole).is_ok());
        for octets in [&b""[..], b"\x01", b"\x01a", b"\x01a\0\0", b"\xc0\x0c", b"\x40", &long] {
            assert_eq!(Name::from_wire(octets).err(), Some(Error::BadName), "{octets:?}");
        }
        let more = [&[1; 256][..], &[0]].concat();
        assert_eq!(Name::from_wire(&more).err(), Some(Error::BadName));
    }

    #[test]
    fn texts_and_wire_forms_lead_back() {
        for text in [".", "www.example.", r"a\.b.\\.", r"\000\032\127\255.x."] {
            let name: Name = text.parse().unwrap();
            assert_eq!(name.to_string(), text);
            assert_eq!(Name::from_wire(name.wire()).unwrap(), name);
        }
        assert_eq!(format!("{:>4}|{:?}", Name::ROOT, Name::ROOT), "   .|Name(.)");
    }

    /// Names of labels of all sizes and octets, drawn by a linear congruential generator.
    #[test]
    fn any_name_leads_back() {
        let mut state = 1u32;
        let mut draw = |below: u32| {
            state = state.wrapping_mul(1_664_525).wrapping_add(1_013_904_223);
            (state >> 8) % below
        };
        for _ in 0..1000 {
            let mut wire = Vec::new();
            let size = draw(255) as usize;
            while wire.len() + 2 <= size {
                let most = LABEL_MOST.min(size - wire.len() - 1) as u32;
                let label: Vec<_> = (0..=draw(most)).map(|_| draw(256) as u8).collect();
                wire.push(label.len() as u8);
                wire.extend(label);
            }
            wire.push(0);
            let name = Name::from_wire(&wire).unwrap();
            let again: Name = name.to_string().parse().unwrap();
            assert_eq!(again.wire(), wire, "{name}");
        }
    }

    #[test]
    fn case_does_not_count() {
        let hash = |text: &str| {
            let mut hasher = std::hash::DefaultHasher::new();
            text.parse::<Name>().unwrap().hash(&mut hasher);
            hasher.finish()
        };
        let [one, other]: [Name; 2] =
            ["wWw.example".parse().unwrap(), "Www.eXample.".parse().unwrap()];
        assert_eq!(one, other);
        assert_eq!(hash("wWw.example"), hash("Www.eXample."));
        assert_ne!(one, "ww.wexample".parse().unwrap());
    }

    #[test]
    fn labels_are_told_in_order() {
        let name: Name = "www.example.".parse().unwrap();
        assert_eq!(name.labels().collect::<Vec<_>>(), [&b"www"[..], b"example"]);
        assert_eq!(Name::ROOT.labels().count(), 0);
    }
}
