//! Nodes with all nodes above or below them.

use crate::acl::Acl;
use crate::error::Error;
use crate::fault::{Code, NoReply};
use crate::node::ANY_VERSION;
use crate::request::Request;
use crate::session_methods::Caller;

/// How often a request is repeated whose answer was lost. Creating or deleting a node twice does no harm.
const MOST_LOSSES: usize = 8;

/// Makes a request, and repeats it if the answer is lost.
fn surely<T>(session: &mut impl Caller, request: &Request<T>) -> Result<T, Error> {
    for _ in 0..MOST_LOSSES {
        match session.answer(request.clone()) {
            Err(error) if error.no_reply() == Some(NoReply::ConnectionLoss) => {}
            answer => return answer,
        }
    }
    session.answer(request.clone())
}

/// The path of the child with this name.
pub(crate) fn child_of(directory: &str, name: &str) -> String {
    let directory = directory.strip_suffix('/').unwrap_or(directory);
    format!("{directory}/{name}")
}

/// The node above this one. The root has none.
pub(crate) fn parent_of(path: &str) -> Option<&str> {
    match path.rfind('/')? {
        0 if path.len() == 1 => None,
        0 => Some("/"),
        end => Some(&path[..end]),
    }
}

/// Creates a node without data, and those above it, as far as they are missing, with this ACL. An empty list gives everybody every right.
pub(crate) fn ensure(session: &mut impl Caller, path: &str, acls: &[Acl]) -> Result<(), Error> {
    let mut missing = Vec::new();
    let mut next = Some(path);
    while let Some(path) = next {
        if session.answer(Request::exists(path))?.is_some() {
            break;
        }
        missing.push(path);
        next = parent_of(path);
    }
    while let Some(path) = missing.pop() {
        match surely(session, &Request::persistent(path, b"", acls)) {
            Ok(_) => {}
            Err(error) if error.code() == Some(Code::NODE_EXISTS) => {}
            Err(error) if error.code() == Some(Code::NO_NODE) => {
                let above = parent_of(path).ok_or(error)?; // it was there, and is gone
                missing.extend([path, above]);
            }
            Err(error) => return Err(error),
        }
    }
    Ok(())
}

/// Deletes a node and everything below it, bottom up, and returns how many nodes it deleted.
pub(crate) fn delete_all(session: &mut impl Caller, path: &str) -> Result<usize, Error> {
    let mut left = vec![String::from(path)];
    let mut count = 0;
    while let Some(path) = left.pop() {
        match surely(session, &Request::delete(&path, ANY_VERSION)) {
            Ok(()) => count += 1,
            Err(error) if error.code() == Some(Code::NO_NODE) => {}
            Err(error) if error.code() == Some(Code::NOT_EMPTY) => {
                let names = match session.answer(Request::children(&path)) {
                    Err(error) if error.code() == Some(Code::NO_NODE) => Vec::new(),
                    listed => listed?.0,
                };
                let below: Vec<_> = names.iter().map(|name| child_of(&path, name)).collect();
                left.push(path);
                left.extend(below);
            }
            Err(error) => return Err(error),
        }
    }
    Ok(count)
}

#[cfg(test)]
mod tests {
    use super::parent_of;

    #[test]
    fn the_root_has_nothing_above_it() {
        for (path, above) in [("/", None), ("/a", Some("/")), ("/a/b", Some("/a"))] {
            assert_eq!(parent_of(path), above);
        }
    }
}
