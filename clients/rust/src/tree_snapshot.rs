//! A snapshot of a tree, and how it differs from an earlier one.

use crate::subtree::{Subtree, SubtreeNode};
use std::cmp::Ordering;
use std::fmt;
use std::iter;
use std::slice;
use std::sync::Arc;

/// All nodes at and below a path, as the servers' history has them at one zxid: from a [`Tree`](crate::Tree). It never changes, and its
/// clones are the same snapshot.
///
/// A path at or below the root that is not in it had no node at that zxid. The proved core says so; that this type shows it is tested.
///
/// ```no_run
/// use dirwolleu::Session;
/// use std::time::Duration;
///
/// # fn main() -> Result<(), Box<dyn std::error::Error>> {
/// let session = Session::open("127.0.0.1:2181", Duration::from_secs(10))?;
/// let snapshot = session.tree("/config")?.wait_for(Duration::from_secs(10))?;
/// println!("{} nodes at zxid {}", snapshot.len(), snapshot.zxid());
/// for node in snapshot.children("/config") {
///     println!("{}: {:?}", node.name(), node.data);
/// }
/// if let Some(port) = snapshot.get("/config/port") {
///     println!("made at zxid {}", port.stat.czxid);
/// }
/// # Ok(())
/// # }
/// ```
#[derive(Clone, PartialEq, Eq)]
pub struct TreeSnapshot {
    root: Arc<str>,
    subtree: Arc<Subtree>,
}

/// The order of a tree's paths: each is before those below it, and everything below a node follows it, because a slash is before all
/// characters of names.
fn order(one: &str, other: &str) -> Ordering {
    let rank = |byte: u8| if byte == b'/' { 0 } else { byte };
    one.bytes().map(rank).cmp(other.bytes().map(rank))
}

/// Whether one path is below another one.
pub(crate) fn is_below(path: &str, above: &str) -> bool {
    match path.strip_prefix(above) {
        Some(rest) => rest.starts_with('/') || above == "/" && !rest.is_empty(),
        None => false,
    }
}

impl TreeSnapshot {
    /// The bytes of its paths and data.
    pub(crate) fn bytes(&self) -> usize {
        let of = |node: &SubtreeNode| node.path.len() + node.data.as_ref().map_or(0, Vec::len);
        self.subtree.nodes.iter().map(of).sum()
    }

    /// A snapshot of the nodes at and below this root, given in any order.
    pub(crate) fn new(root: &str, mut subtree: Subtree) -> TreeSnapshot {
        subtree
            .nodes
            .sort_by(|one, other| order(&one.path, &other.path));
        TreeSnapshot {
            root: Arc::from(root),
            subtree: Arc::new(subtree),
        }
    }

    /// The path of the tree, which is that of the first node.
    #[must_use]
    pub fn root(&self) -> &str {
        &self.root
    }

    /// The zxid at which the servers had just these nodes.
    #[must_use]
    pub fn zxid(&self) -> i64 {
        self.subtree.zxid
    }

    /// The number of nodes, at least one.
    #[must_use]
    #[allow(clippy::len_without_is_empty)] // there is a root
    pub fn len(&self) -> usize {
        self.nodes().len()
    }

    fn nodes(&self) -> &[SubtreeNode] {
        &self.subtree.nodes
    }

    fn place(&self, path: &str) -> Result<usize, usize> {
        let found = |node: &SubtreeNode| order(&node.path, path);
        self.nodes().binary_search_by(found)
    }

    /// The node at a path, or `None` if there was none.
    #[must_use]
    pub fn get(&self, path: &str) -> Option<&SubtreeNode> {
        self.place(path).ok().map(|place| &self.nodes()[place])
    }

    /// Each node, followed by all nodes below it. The children of a node are in the byte order of their names.
    pub fn iter(&self) -> slice::Iter<'_, SubtreeNode> {
        self.nodes().iter()
    }

    /// The nodes right below a path, in the byte order of their names. There are none if the path had no node.
    pub fn children<'a>(&'a self, path: &'a str) -> impl Iterator<Item = &'a SubtreeNode> + 'a {
        let after = self.place(path).map_or(self.len(), |place| place + 1);
        let mut rest = &self.nodes()[after..];
        iter::from_fn(move || {
            let (child, others) = rest.split_first()?;
            if !is_below(&child.path, path) {
                return None;
            }
            let below = others.partition_point(|node| is_below(&node.path, &child.path));
            rest = &others[below..];
            Some(child)
        })
    }

    /// The differences from an earlier snapshot of the tree. Without one, all nodes are new.
    #[must_use]
    pub fn changes_since<'a>(&'a self, earlier: Option<&'a TreeSnapshot>) -> TreeChanges<'a> {
        let mut changes = TreeChanges::default();
        let mut before = earlier
            .map_or(&[][..], TreeSnapshot::nodes)
            .iter()
            .peekable();
        for node in self {
            while let Some(gone) = before.next_if(|old| order(&old.path, &node.path).is_lt()) {
                changes.removed.push(gone);
            }
            match before.next_if(|old| old.path == node.path) {
                None => changes.added.push(node),
                Some(old) if old.data != node.data || old.stat != node.stat => {
                    changes.changed.push(node);
                }
                Some(_) => {}
            }
        }
        changes.removed.extend(before);
        changes
    }
}

impl<'a> IntoIterator for &'a TreeSnapshot {
    type Item = &'a SubtreeNode;
    type IntoIter = slice::Iter<'a, SubtreeNode>;

    fn into_iter(self) -> slice::Iter<'a, SubtreeNode> {
        self.iter()
    }
}

/// Prints no data.
impl fmt::Debug for TreeSnapshot {
    fn fmt(&self, f: &mut fmt::Formatter<'_>) -> fmt::Result {
        f.debug_struct("TreeSnapshot")
            .field("root", &self.root())
            .field("zxid", &self.zxid())
            .field("len", &self.len())
            .finish_non_exhaustive()
    }
}

/// The differences between two snapshots of a tree, from [`TreeSnapshot::changes_since`].
///
/// ```
/// use dirwolleu::{SubtreeNode, TreeSnapshot};
///
/// fn tell(now: &TreeSnapshot, before: Option<&TreeSnapshot>) {
///     let changes = now.changes_since(before);
///     let paths = |nodes: &[&SubtreeNode]| nodes.iter().map(|node| node.path.clone()).collect::<Vec<_>>();
///     println!("new: {:?}", paths(&changes.added));
///     println!("gone: {:?}", paths(&changes.removed));
///     println!("changed: {:?}", paths(&changes.changed));
/// }
/// ```
#[derive(Clone, Debug, Default, PartialEq, Eq)]
#[non_exhaustive]
pub struct TreeChanges<'a> {
    /// The new nodes, as they are now.
    pub added: Vec<&'a SubtreeNode>,
    /// The nodes that are gone, as they were.
    pub removed: Vec<&'a SubtreeNode>,
    /// The nodes in both, with other data or another stat, as they are now. A node that was deleted and created again counts, too.
    pub changed: Vec<&'a SubtreeNode>,
}

impl TreeChanges<'_> {
    /// Whether nothing differs.
    #[must_use]
    pub fn is_empty(&self) -> bool {
        self.added.is_empty() && self.removed.is_empty() && self.changed.is_empty()
    }
}

#[cfg(test)]
mod tests {
    use super::{is_below, Subtree, SubtreeNode, TreeSnapshot};
    use crate::node::DataStat;

    fn node(path: &str, data: &str) -> SubtreeNode {
        SubtreeNode {
            path: String::from(path),
            data: Some(data.into()),
            stat: DataStat::default(),
            pzxid: 0,
        }
    }

    fn snapshot(root: &str, nodes: &[(&str, &str)]) -> TreeSnapshot {
        let nodes = nodes.iter().map(|(path, data)| node(path, data)).collect();
        TreeSnapshot::new(root, Subtree { zxid: 7, nodes })
    }

    fn paths<'a>(nodes: impl IntoIterator<Item = &'a SubtreeNode>) -> Vec<&'a str> {
        nodes.into_iter().map(|node| node.path.as_str()).collect()
    }

    /// Names with characters before a slash in byte order, and names that begin with others.
    const MIXED: [&str; 7] = [
        "/t", "/t/a", "/t/a-b", "/t/a/z", "/t/a/b/c", "/t/a/b", "/t/ab",
    ];

    #[test]
    fn a_node_is_followed_by_all_that_is_below_it() {
        let all = snapshot("/t", &MIXED.map(|path| (path, "")));
        let in_order = [
            "/t", "/t/a", "/t/a/b", "/t/a/b/c", "/t/a/z", "/t/a-b", "/t/ab",
        ];
        assert_eq!(paths(&all), in_order);
        assert_eq!(paths(all.children("/t")), ["/t/a", "/t/a-b", "/t/ab"]);
        assert_eq!(paths(all.children("/t/a")), ["/t/a/b", "/t/a/z"]);
        for leaf in ["/t/ab", "/t/none", "/"] {
            assert_eq!(all.children(leaf).count(), 0, "{leaf}");
        }
        assert_eq!(
            all.children("/t/a").next().map(SubtreeNode::name),
            Some("b")
        );
        for path in MIXED {
            assert_eq!(all.get(path).map(|node| node.path.as_str()), Some(path));
        }
        assert_eq!(all.get("/t/b"), None);
    }

    #[test]
    fn the_root_of_all_has_children() {
        let all = snapshot("/", &[("/", ""), ("/b", ""), ("/a/x", ""), ("/a", "")]);
        assert_eq!(paths(all.children("/")), ["/a", "/b"]);
        assert_eq!(all.get("/").map(SubtreeNode::name), Some(""));
        assert!(is_below("/a", "/") && !is_below("/", "/") && !is_below("/ab", "/a"));
    }

    #[test]
    fn what_differs_is_told() {
        let before = snapshot(
            "/t",
            &[("/t", ""), ("/t/a", "1"), ("/t/b", ""), ("/t/z", "")],
        );
        let after = snapshot(
            "/t",
            &[("/t", ""), ("/t/a", "2"), ("/t/c", ""), ("/t/c/d", "")],
        );
        let changes = after.changes_since(Some(&before));
        assert_eq!(paths(changes.added), ["/t/c", "/t/c/d"]);
        assert_eq!(paths(changes.removed), ["/t/b", "/t/z"]);
        assert_eq!(paths(changes.changed), ["/t/a"]);
        assert!(after.changes_since(Some(&after)).is_empty());
        assert_eq!(after.changes_since(None).added.len(), 4);
    }
}
