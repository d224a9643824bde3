//! The path below which all nodes of a session are.

use crate::fault::Fault;
use std::borrow::Cow;

/// Whether the path of a node cannot have this character, by the Programmer's Guide.
fn is_no_letter(one: char) -> bool {
    matches!(one, '\0'..='\u{1f}' | '\u{7f}'..='\u{9f}' | '\u{e000}'..='\u{f8ff}' | '\u{fff0}'..='\u{ffff}')
}

/// The prefix of all paths at the servers: nothing, or a path that is not `/`.
#[derive(Clone, Debug, Default, PartialEq, Eq, Hash)]
pub(crate) struct Chroot {
    prefix: String,
}

impl Chroot {
    /// The chroot at the end of a connection string: nothing, `/`, or a path. `None` if it is no path.
    pub(crate) fn of(text: &str) -> Option<Chroot> {
        let prefix = String::from(if text == "/" { "" } else { text });
        let mut parts = prefix.split('/');
        let is_rooted = parts.next() == Some("");
        let is_path = is_rooted && parts.all(|part| !matches!(part, "" | "." | ".."));
        is_path.then_some(Chroot { prefix })
    }

    pub(crate) fn as_str(&self) -> &str {
        &self.prefix
    }

    /// The servers' path for one of the program's. A text that is no path stays none.
    #[inline]
    pub(crate) fn outer<'a>(&self, path: &'a str) -> Result<Cow<'a, str>, Fault> {
        if self.prefix.is_empty() {
            return Ok(Cow::Borrowed(path));
        }
        self.below(path)
    }

    /// The same for a session with a chroot.
    #[inline(never)]
    fn below<'a>(&self, path: &'a str) -> Result<Cow<'a, str>, Fault> {
        match path {
            "/" => Ok(Cow::Owned(self.prefix.clone())),
            _ if path.starts_with('/') => Ok(Cow::Owned(self.prefix.clone() + path)),
            _ => Err(Fault::not_path(path)),
        }
    }

    /// The same for a text in a record that the core does not read: it has to be the path of a node.
    pub(crate) fn checked<'a>(&self, path: &'a str) -> Result<Cow<'a, str>, Fault> {
        let is_path = path == "/" || !path.is_empty() && Chroot::of(path).is_some();
        if !is_path || path.chars().any(is_no_letter) {
            return Err(Fault::not_path(path));
        }
        self.outer(path)
    }

    /// The same for a node to be created. A sequential one may have its number as its whole name: then the path ends with `/`.
    pub(crate) fn checked_create(&self, path: &str, is_sequential: bool) -> Result<String, Fault> {
        match path.strip_suffix('/').filter(|_| is_sequential) {
            None => self.checked(path).map(Cow::into_owned),
            Some("") => Ok(self.prefix.clone() + "/"),
            Some("/") => Err(Fault::not_path(path)),
            Some(folder) => {
                let folder = self.checked(folder).map_err(|fault| fault.at(path))?;
                Ok(folder.into_owned() + "/")
            }
        }
    }

    /// The same for a prefix of paths: with `/`, that of all nodes of the program.
    pub(crate) fn checked_prefix(&self, path: &str) -> Result<String, Fault> {
        let outer = self.checked(path)?.into_owned();
        Ok(if path == "/" && outer != "/" {
            outer + "/"
        } else {
            outer
        })
    }

    /// The program's path for one of the servers'.
    pub(crate) fn inner(&self, path: String) -> String {
        match path.strip_prefix(&self.prefix) {
            Some("") => String::from("/"),
            Some(rest) if rest.starts_with('/') => String::from(rest),
            _ => path,
        }
    }
}

#[cfg(test)]
mod tests {
    use super::Chroot;
    use crate::fault::Fault;

    #[test]
    fn a_path_goes_out_and_comes_back() {
        let app = Chroot::of("/app/one").unwrap();
        for (inner, outer) in [
            ("/", "/app/one"),
            ("/a", "/app/one/a"),
            ("/a/b", "/app/one/a/b"),
        ] {
            assert_eq!(app.outer(inner).as_deref(), Ok(outer));
            assert_eq!(app.inner(outer.into()), inner);
        }
        assert_eq!(app.inner("/app/onetwo".into()), "/app/onetwo");
        let root = Chroot::default();
        assert_eq!(root.outer("/a").as_deref(), Ok("/a"));
        assert_eq!(root.inner("/a".into()), "/a");
    }

    #[test]
    fn what_is_no_path_becomes_none() {
        let app = Chroot::of("/app").unwrap();
        for text in ["", "a", "-1/a"] {
            assert_eq!(app.outer(text), Err(Fault::not_path(text)), "{text}");
        }
    }

    #[test]
    fn a_path_that_the_core_does_not_read_is_checked() {
        let app = Chroot::of("/app").unwrap();
        for (path, outer) in [("/", "/app"), ("/a", "/app/a"), ("/a/b c", "/app/a/b c")] {
            assert_eq!(app.checked(path).as_deref(), Ok(outer));
        }
        for text in [
            "",
            "a",
            "/a/",
            "//",
            "/a//b",
            "/../a",
            "/a\0",
            "/\u{85}",
            "/\u{fff0}",
        ] {
            assert_eq!(app.checked(text), Err(Fault::not_path(text)), "{text:?}");
        }
    }

    #[test]
    fn a_sequential_node_may_have_a_number_for_its_name() {
        let (root, app) = (Chroot::default(), Chroot::of("/app").unwrap());
        for (path, outer) in [("/", "/app/"), ("/a/", "/app/a/"), ("/a", "/app/a")] {
            assert_eq!(app.checked_create(path, true).as_deref(), Ok(outer));
            assert_eq!(root.checked_create(path, true).as_deref(), Ok(path));
        }
        for path in ["", "a/", "//", "/a//", "/./"] {
            let fault = Fault::not_path(path);
            assert_eq!(app.checked_create(path, true), Err(fault), "{path}");
        }
        assert_eq!(
            app.checked_create("/a/", false),
            Err(Fault::not_path("/a/"))
        );
    }

    #[test]
    fn a_prefix_is_that_of_nodes_of_the_program_alone() {
        let (root, app) = (Chroot::default(), Chroot::of("/app").unwrap());
        for (path, outer) in [("/", "/app/"), ("/a", "/app/a")] {
            assert_eq!(app.checked_prefix(path).as_deref(), Ok(outer));
            assert_eq!(root.checked_prefix(path).as_deref(), Ok(path));
        }
        assert_eq!(app.checked_prefix("/a/"), Err(Fault::not_path("/a/")));
    }

    #[test]
    fn a_chroot_is_nothing_or_a_path() {
        for (text, prefix) in [("", ""), ("/", ""), ("/app", "/app"), ("/a/b", "/a/b")] {
            assert_eq!(
                Chroot::of(text).map(|chroot| chroot.prefix).as_deref(),
                Some(prefix)
            );
        }
        for text in ["app", "/app/", "//app", "/a//b", "/a/./b", "/.."] {
            assert_eq!(Chroot::of(text), None, "{text}");
        }
    }
}
