//! Why a text is no path of a node, in words.

use std::fmt;

/// The most bytes of a path.
const LONGEST_PATH: usize = 4_096;

/// The most characters of a path that an error prints.
const LONGEST_SHOWN: usize = 256;

/// Why a text is no path of a node.
///
/// ```
/// use dirwolleu::{Fault, Machine, PathFault};
/// use std::time::Duration;
///
/// let machine = Machine::open(Duration::from_secs(10), 1, 42)?;
/// let fault = machine.data_mark("/a/../b").unwrap_err();
/// assert!(matches!(fault, Fault::NotPath { reason: Some(PathFault::DotName), .. }));
/// # Ok::<(), Fault>(())
/// ```
#[derive(Clone, Copy, Debug, PartialEq, Eq, Hash)]
#[non_exhaustive]
pub enum PathFault {
    /// It has no byte.
    Empty,
    /// It has more than 4,096 bytes, with the chroot of the session.
    TooLong,
    /// It does not begin with a slash.
    NoSlashFirst,
    /// It has a control character, or another one that paths cannot have.
    BadCharacter,
    /// Two slashes follow one another, or it ends with a slash and is not the root.
    EmptyName,
    /// One of its names is `.` or `..`.
    DotName,
}

/// Whether no path can have this character.
fn is_bad(character: char) -> bool {
    matches!(character, '\0'..='\u{1f}' | '\u{7f}'..='\u{9f}' | '\u{e000}'..='\u{f8ff}' | '\u{fff0}'..)
}

impl PathFault {
    /// The first of these that applies to a text. Only the library decides whether it is a path: this says why it is none.
    pub(crate) fn of(text: &str) -> Option<PathFault> {
        let rest = text.strip_prefix('/');
        let mut names = rest.unwrap_or_default().split('/');
        let faults = [
            (text.is_empty(), PathFault::Empty),
            (text.len() > LONGEST_PATH, PathFault::TooLong),
            (rest.is_none(), PathFault::NoSlashFirst),
            (text.contains(is_bad), PathFault::BadCharacter),
            (
                text != "/" && names.clone().any(str::is_empty),
                PathFault::EmptyName,
            ),
            (
                names.any(|name| matches!(name, "." | "..")),
                PathFault::DotName,
            ),
        ];
        let first = faults.into_iter().find(|(applies, _)| *applies);
        first.map(|(_, fault)| fault)
    }
}

impl fmt::Display for PathFault {
    fn fmt(&self, f: &mut fmt::Formatter<'_>) -> fmt::Result {
        f.write_str(match self {
            PathFault::Empty => "it is empty",
            PathFault::TooLong => "more than 4096 bytes",
            PathFault::NoSlashFirst => "no slash at its beginning",
            PathFault::BadCharacter => "a character that paths do not have",
            PathFault::EmptyName => "an empty name",
            PathFault::DotName => "a name that is . or ..",
        })
    }
}

/// A path as an error prints it: with escaped control characters, and no longer than a person reads.
pub(crate) struct Escaped<'a>(pub(crate) &'a str);

impl fmt::Display for Escaped<'_> {
    fn fmt(&self, f: &mut fmt::Formatter<'_>) -> fmt::Result {
        if self.0.is_empty() {
            return f.write_str("\"\"");
        }
        for character in self.0.chars().take(LONGEST_SHOWN) {
            if character.is_control() {
                write!(f, "{}", character.escape_default())?;
            } else {
                write!(f, "{character}")?;
            }
        }
        match self.0.chars().nth(LONGEST_SHOWN) {
            Some(_) => f.write_str(".."),
            None => Ok(()),
        }
    }
}

#[cfg(test)]
mod tests {
    use super::{Escaped, PathFault};

    #[test]
    fn the_first_fault_is_told() {
        let long = "/x".repeat(2_049);
        for (text, fault) in [
            ("", PathFault::Empty),
            (long.as_str(), PathFault::TooLong),
            ("a//b", PathFault::NoSlashFirst),
            ("/a\0", PathFault::BadCharacter),
            ("/\u{85}", PathFault::BadCharacter),
            ("/\u{f8ff}", PathFault::BadCharacter),
            ("/\u{10ffff}", PathFault::BadCharacter),
            ("//", PathFault::EmptyName),
            ("/a//b", PathFault::EmptyName),
            ("/a/", PathFault::EmptyName),
            ("/.", PathFault::DotName),
            ("/a/../b", PathFault::DotName),
        ] {
            assert_eq!(PathFault::of(text), Some(fault), "{text:?}");
        }
        for path in [
            "/",
            "/a",
            "/a/b c",
            "/...",
            "/\u{a0}",
            "/\u{ffef}",
            &long[..4_096],
        ] {
            assert_eq!(PathFault::of(path), None, "{path:?}");
        }
    }

    #[test]
    fn a_path_is_shown_on_one_line() {
        assert_eq!(Escaped("/a b/ä").to_string(), "/a b/ä");
        assert_eq!(Escaped("/a\nb\0").to_string(), "/a\\nb\\u{0}");
        assert_eq!(Escaped("").to_string(), "\"\"");
        let name = "ä".repeat(255);
        assert_eq!(Escaped(&format!("/{name}")).to_string(), format!("/{name}"));
        assert_eq!(
            Escaped(&format!("/{name}x")).to_string(),
            format!("/{name}..")
        );
    }
}
