//! Names of packages and files. They come from outside and are never paths: no part of one is
//! empty, `.` or `..`, and each is made a path below a folder of the program's own choice only.

use std::ffi::OsStr;
use std::os::unix::ffi::OsStrExt;
use std::path::PathBuf;

/// The most bytes of a name, and of a part of it, as file systems have them.
const MOST_NAME: usize = 4000;
const MOST_PART: usize = 255;

/// A name as the catalogue has it: bytes 21 to 7E but `%`, others as %XX, and `/` between parts.
#[derive(Clone, Debug, PartialEq, Eq, PartialOrd, Ord, Hash)]
pub struct Name(String);

fn is_plain(byte: u8) -> bool {
    (0x21..=0x7E).contains(&byte) && byte != b'%'
}

/// Why bytes are no name.
fn flaw(bytes: &[u8]) -> Option<&'static str> {
    let odd = |part: &[u8]| matches!(part, b"" | b"." | b"..");
    if bytes.split(|byte| *byte == b'/').any(odd) {
        return Some("a part of it is empty, . or ..");
    }
    if bytes.contains(&0) {
        return Some("it has a zero byte");
    }
    let long = |part: &[u8]| part.len() > MOST_PART;
    (bytes.len() > MOST_NAME || bytes.split(|byte| *byte == b'/').any(long))
        .then_some("it is too long")
}

impl Name {
    /// The name of some bytes, or why they are none.
    pub fn of(bytes: &[u8]) -> Result<Name, String> {
        let written = |byte: &u8| match is_plain(*byte) {
            true => char::from(*byte).to_string(),
            false => format!("%{byte:02X}"),
        };
        match flaw(bytes) {
            None => Ok(Name(bytes.iter().map(written).collect())),
            Some(flaw) => {
                Err(format!("{} can be no name: {flaw}", OsStr::from_bytes(bytes).display()))
            }
        }
    }

    /// The same of one part.
    pub fn of_one_part(bytes: &[u8]) -> Result<Name, String> {
        match Name::of(bytes)? {
            name if name.0.contains('/') => {
                Err(format!("{} can be no package's name: it has a /", name.0))
            }
            name => Ok(name),
        }
    }

    /// A name as it is written, which it must be byte for byte.
    pub fn parse(text: &str) -> Option<Name> {
        let name = Name::of(&unescaped(text)?).ok()?;
        (name.0 == text).then_some(name)
    }

    pub fn as_str(&self) -> &str {
        &self.0
    }

    /// The bytes of the name.
    pub fn bytes(&self) -> Vec<u8> {
        unescaped(&self.0).unwrap_or_default()
    }

    /// The name as a path below a folder.
    pub fn path(&self) -> PathBuf {
        OsStr::from_bytes(&self.bytes()).into()
    }

    /// The names of the folders above it.
    pub fn above(&self) -> impl Iterator<Item = &str> {
        self.0.match_indices('/').map(|(at, _)| &self.0[..at])
    }
}

fn unescaped(text: &str) -> Option<Vec<u8>> {
    let mut bytes = Vec::new();
    let mut rest = text.as_bytes();
    while let [first, more @ ..] = rest {
        if *first != b'%' {
            bytes.push(*first);
            rest = more;
            continue;
        }
        let digits = std::str::from_utf8(more.get(..2)?).ok()?;
        bytes.push(u8::from_str_radix(digits, 16).ok()?);
        rest = &more[2..];
    }
    Some(bytes)
}

#[cfg(test)]
mod tests {
    use super::*;

    #[test]
    fn any_bytes_come_back() {
        for bytes in [&b"a"[..], b"subs/de.xml", b"100% \xFF\n,", b"...", b"a/..b", &[b'x'; 255]] {
            let name = Name::of(bytes).unwrap();
            assert_eq!(name.bytes(), bytes);
            assert_eq!(Name::parse(name.as_str()), Some(name.clone()));
            assert!(name.as_str().bytes().all(|byte| (0x21..=0x7E).contains(&byte)));
        }
        assert_eq!(Name::of(b"a b%").unwrap().as_str(), "a%20b%25");
    }

    #[test]
    fn no_name_leads_elsewhere() {
        for bytes in
            [&b""[..], b".", b"..", b"/a", b"a/", b"a//b", b"../a", b"a/..", b"a/./b", b"a\0b"]
        {
            assert!(Name::of(bytes).is_err(), "{bytes:?}");
        }
        assert!(Name::of(&[b'x'; 256]).is_err() && Name::of(&b"x/".repeat(2001)[..4001]).is_err());
        for text in ["%2E%2E/a", "..", "%41", "%2f", "%0", "%zz", "a b", "%00", "a/%2E", "\u{e9}"] {
            assert_eq!(Name::parse(text), None, "{text}");
        }
        assert!(Name::of_one_part(b"a/b").is_err() && Name::of_one_part(b"a").is_ok());
    }

    #[test]
    fn folders_above() {
        let name = Name::of(b"a/b c/d").unwrap();
        assert!(name.above().eq(["a", "a/b%20c"]));
        assert_eq!(name.path(), PathBuf::from("a/b c/d"));
    }
}
