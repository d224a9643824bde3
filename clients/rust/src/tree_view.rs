//! The view of a followed tree: its newest snapshot, or why there is none, and when to copy the tree for the next one.
//!
//! The machine decides which nodes it follows, and says when the tree is complete; the core judges whether it is of one moment. This module
//! decides how often to copy the tree, and notes why there is nothing newer. The session waits while the tree is copied. The copy is read
//! without the session's lock, because that takes the longest.

use crate::action::Refusal;
use crate::cache::{DataAnswer, Kept, Mark};
use crate::chroot::Chroot;
use crate::dispatch::{SubjectUpdate, TreeUpdate};
use crate::error::{Error, ErrorKind};
use crate::fault::{Code, Fault};
use crate::machine::Machine;
use crate::moment::{Clock, Moment};
use crate::subtree::{nodes_in, Subtree};
use crate::tree_snapshot::{is_below, TreeSnapshot};
use std::collections::{BTreeMap, HashMap};
use std::fmt;
use std::mem;
use std::sync::{Arc, Mutex, MutexGuard, PoisonError, Weak};
use std::time::{Duration, Instant};

/// The pause before the next copy if there was no memory for one.
const PAUSE_WITHOUT_MEMORY: Duration = Duration::from_secs(1);

/// The pause after a copy lasts this many times as long as the copy took.
const PAUSE_FACTOR: u32 = 10;

/// The first room for the text of a tree.
const FIRST_ROOM: usize = 4_096;

/// The view that all handles of a tree share.
#[derive(Debug)]
pub(crate) struct TreeView {
    root: String,
    state: Mutex<ViewState>,
}

/// Each piece of news has a number, greater than those before.
#[derive(Debug, Default)]
struct ViewState {
    latest: Option<TreeSnapshot>,
    is_current: bool,
    trouble: Option<Error>,
    shown: u64,
    troubled: u64,
    /// The number of the last copy, and whether a change has ended it since.
    copied: u64,
    is_outdated: bool,
    /// How long the last copy took to read.
    reading: Duration,
}

impl TreeView {
    pub(crate) fn of(root: &str) -> TreeView {
        TreeView {
            root: String::from(root),
            state: Mutex::default(),
        }
    }

    fn state(&self) -> MutexGuard<'_, ViewState> {
        self.state.lock().unwrap_or_else(PoisonError::into_inner)
    }

    pub(crate) fn root(&self) -> &str {
        &self.root
    }

    pub(crate) fn latest(&self) -> Option<TreeSnapshot> {
        self.state().latest.clone()
    }

    pub(crate) fn current(&self) -> Option<TreeSnapshot> {
        let state = self.state();
        state.latest.clone().filter(|_| state.is_current)
    }

    pub(crate) fn trouble(&self) -> Option<Error> {
        self.state().trouble.clone()
    }

    /// Prints a handle of this name.
    pub(crate) fn fmt_as(&self, name: &str, f: &mut fmt::Formatter<'_>) -> fmt::Result {
        let state = self.state();
        f.debug_struct(name)
            .field("root", &self.root)
            .field("latest", &state.latest)
            .field("is_current", &state.is_current)
            .field("trouble", &state.trouble)
            .finish_non_exhaustive()
    }

    /// The first news after the one with this number, and their number.
    pub(crate) fn news_after(&self, told: u64) -> Option<(u64, Result<TreeSnapshot, Error>)> {
        let state = self.state();
        let shown = state.latest.clone().map(|latest| (state.shown, Ok(latest)));
        let trouble = state.trouble.clone();
        let trouble = trouble.map(|trouble| (state.troubled, Err(trouble)));
        let news = shown.into_iter().chain(trouble);
        news.filter(|(number, _)| *number > told)
            .min_by_key(|(number, _)| *number)
    }
}

impl ViewState {
    fn next_number(&self) -> u64 {
        self.shown.max(self.troubled).max(self.copied) + 1
    }

    /// Notes a copy of the tree. Returns the number of the snapshot that it becomes.
    fn begin_copy(&mut self) -> u64 {
        self.copied = self.next_number();
        self.is_outdated = false;
        self.trouble = None;
        self.copied
    }

    /// Shows the snapshot of this number, unless a later one is shown. Returns the snapshot that it replaces.
    fn show(&mut self, number: u64, snapshot: TreeSnapshot) -> Option<TreeSnapshot> {
        if number < self.shown {
            return Some(snapshot);
        }
        self.shown = number;
        self.is_current = number == self.copied && !self.is_outdated;
        self.latest.replace(snapshot)
    }

    /// Notes that a change has ended the shown snapshot, and the copy that is being read.
    fn invalidate(&mut self) {
        self.is_current = false;
        self.is_outdated = true;
    }

    /// Sets the trouble. Returns whether there is one, and it differs from the last.
    fn set_trouble(&mut self, trouble: Option<Error>) -> bool {
        let is_news = trouble.is_some() && self.trouble != trouble;
        if is_news {
            self.troubled = self.next_number();
            self.invalidate();
        }
        self.trouble = trouble;
        is_news
    }
}

/// The ticket of troubles that concern the whole tree. The machine follows nothing by it.
const WHOLE_TREE: u64 = 0;

/// One tree. Its root's path is the servers'.
pub(crate) struct FollowedTree {
    shown: Weak<TreeView>,
    ticket: u64,
    pub(crate) root: String,
    pub(crate) most: usize,
    /// The paths of its members, as the program knows them, by their tickets.
    paths: HashMap<u64, String>,
    /// The troubles that prevent a newer snapshot, by the tickets of the unreadable members. The first one is shown.
    troubles: BTreeMap<u64, Error>,
    must_copy: bool,
    copy_at: Moment,
    room: usize,
    is_news: bool,
}

/// Why a read was refused, unless that passes. A missing node is news only if it is the root, and the kept answer says that.
fn kind_of(reason: Refusal) -> Option<ErrorKind> {
    match reason {
        Refusal::Closed | Refusal::Code(Code::NO_NODE) => None,
        other => Some(ErrorKind::from(other)).filter(|kind| !kind.is_passing()),
    }
}

impl FollowedTree {
    /// The newest snapshot, if there is one.
    pub(crate) fn latest(&self) -> Option<TreeSnapshot> {
        self.shown.upgrade()?.latest()
    }

    pub(crate) fn new(
        shown: Weak<TreeView>,
        ticket: u64,
        root: String,
        most: usize,
    ) -> FollowedTree {
        FollowedTree {
            shown,
            ticket,
            root,
            most,
            paths: HashMap::new(),
            troubles: BTreeMap::new(),
            must_copy: false,
            copy_at: Moment::default(),
            room: FIRST_ROOM,
            is_news: false,
        }
    }

    /// Whether it still has a handle.
    pub(crate) fn is_wanted(&self) -> bool {
        self.shown.strong_count() > 0
    }

    /// Whether there are news since the last call of this.
    pub(crate) fn takes_news(&mut self) -> bool {
        mem::take(&mut self.is_news)
    }
}

/// The machine's reports.
impl FollowedTree {
    /// Begins again, for another machine, which has reported nothing yet.
    pub(crate) fn begin_again(&mut self) {
        self.paths.clear();
        self.troubles.clear();
        self.invalidate();
    }

    /// Notes that a change has ended the shown snapshot. The tree is copied again only after the machine says that it is complete.
    pub(crate) fn invalidate(&mut self) {
        self.must_copy = false;
        if let Some(shown) = self.shown.upgrade() {
            shown.state().invalidate();
        }
    }

    /// Notes that a good answer of a path has ended.
    pub(crate) fn note_report(&mut self, path: &str) {
        if path == self.root || is_below(path, &self.root) {
            self.invalidate();
        }
    }

    /// Takes the machine's report of a change in its members or its bound, or that it is complete.
    pub(crate) fn update(&mut self, news: TreeUpdate) {
        match news {
            TreeUpdate::MemberAdded { ticket, path } => drop(self.paths.insert(ticket, path)),
            TreeUpdate::MemberRemoved { ticket } => {
                self.paths.remove(&ticket);
                self.note(ticket, None);
            }
            TreeUpdate::BoundReached { is_bounded } => {
                self.note(WHOLE_TREE, is_bounded.then(|| Fault::TooManyNodes.into()));
            }
            TreeUpdate::Complete => self.must_copy = true,
        }
    }

    /// Takes the machine's report that it read a member, or that a server refused the read. Tickets of other subjects have no effect.
    pub(crate) fn update_member(&mut self, ticket: u64, shows: SubjectUpdate, machine: &Machine) {
        let kind = match shows {
            _ if !self.paths.contains_key(&ticket) => return,
            SubjectUpdate::Refused(reason) => kind_of(reason),
            SubjectUpdate::Good if ticket == self.ticket && self.is_absent(machine) => {
                Some(Code::NO_NODE.into())
            }
            SubjectUpdate::Good => None,
        };
        self.note(ticket, kind);
    }

    /// Whether the root is known to be missing.
    fn is_absent(&self, machine: &Machine) -> bool {
        matches!(
            machine.peek_data(&self.root),
            Ok(Some(Kept {
                answer: DataAnswer::Absent,
                mark: Mark::Good
            }))
        )
    }

    /// Notes the trouble of a member, or that it is over, and shows the first remaining trouble.
    fn note(&mut self, ticket: u64, kind: Option<ErrorKind>) {
        let Some(shown) = self.shown.upgrade() else {
            return;
        };
        let path = self.paths.get(&ticket).map_or(shown.root(), String::as_str);
        let trouble = kind.map(|kind| Error::about(Some(path), kind));
        let is_same = self.troubles.get(&ticket) == trouble.as_ref();
        match trouble {
            _ if is_same => return,
            Some(trouble) => self.troubles.insert(ticket, trouble),
            None => self.troubles.remove(&ticket),
        };
        let first = self.troubles.values().next().cloned();
        self.is_news |= shown.state().set_trouble(first);
    }
}

/// Copies of the tree.
impl FollowedTree {
    /// The moment of the next copy, if the tree is complete.
    pub(crate) fn deadline(&self) -> Option<Moment> {
        self.must_copy.then_some(self.copy_at)
    }

    /// Copies the tree if the moment has come. After a copy that took long, the next one waits.
    pub(crate) fn copy_if_due(
        &mut self,
        machine: &Machine,
        chroot: &Chroot,
        clock: Clock,
    ) -> Option<TreeCopy> {
        if !self.must_copy || clock.now() < self.copy_at {
            return None;
        }
        let begun = Instant::now();
        let shown = self.shown.upgrade()?;
        let copied = self.copy(machine, &shown);
        self.must_copy = copied == Err(Fault::NoMemory);
        let pause = if self.must_copy {
            PAUSE_WITHOUT_MEMORY
        } else {
            (begun.elapsed() + shown.state().reading) * PAUSE_FACTOR
        };
        self.copy_at = clock.now().saturating_add(pause);
        self.note(
            WHOLE_TREE,
            copied.as_ref().err().cloned().map(ErrorKind::from),
        );
        let (number, spelled) = copied.ok()??;
        let (zxid, chroot) = (machine.last_zxid(), chroot.clone());
        Some(TreeCopy {
            shown,
            number,
            zxid,
            spelled,
            chroot,
        })
    }

    /// Copies the tree if it is complete, with the number of the copy. It fails if no read can complete it.
    fn copy(
        &mut self,
        machine: &Machine,
        shown: &TreeView,
    ) -> Result<Option<(u64, Vec<u8>)>, Fault> {
        let found = machine.spelled_subtree(&self.root, self.most, &mut self.room)?;
        let Some(spelled) = found else {
            return machine.lacking(&self.root, self.most).map(|_| None);
        };
        self.troubles.clear(); // reads that are still refused no longer belong to the tree
        Ok(Some((shown.state().begin_copy(), spelled)))
    }
}

/// A copy of a tree, as the library spells it.
pub(crate) struct TreeCopy {
    shown: Arc<TreeView>,
    number: u64,
    zxid: i64,
    spelled: Vec<u8>,
    chroot: Chroot,
}

impl TreeCopy {
    /// Reads the copy, and shows it. The caller does not hold the session's lock.
    pub(crate) fn show(&self) {
        let begun = Instant::now();
        let (zxid, nodes) = (self.zxid, nodes_in(&self.spelled));
        let subtree = Subtree { zxid, nodes }.below(&self.chroot);
        let snapshot = TreeSnapshot::new(self.shown.root(), subtree);
        let mut state = self.shown.state();
        state.reading = begun.elapsed();
        let before = state.show(self.number, snapshot);
        drop(state); // before the nodes that are no longer shown
        drop(before);
    }
}

#[cfg(test)]
mod tests {
    use super::{FollowedTree, TreeView};
    use crate::action::Refusal;
    use crate::dispatch::{SubjectUpdate, TreeUpdate};
    use crate::error::{Error, ErrorKind};
    use crate::fault::{Code, Fault};
    use crate::machine::Machine;
    use crate::subtree::Subtree;
    use crate::tree_snapshot::TreeSnapshot;
    use std::sync::Arc;
    use std::time::Duration;

    const DENIED: SubjectUpdate = SubjectUpdate::Refused(Refusal::Code(Code::NO_AUTH));

    /// A tree with the ticket 1 and two nodes, whose data have the tickets 8 and 9, and a machine that keeps nothing.
    fn tree() -> (Arc<TreeView>, FollowedTree, Machine) {
        let shown = Arc::new(TreeView::of("/t"));
        let mut tree = FollowedTree::new(Arc::downgrade(&shown), 1, String::from("/app/t"), 10);
        for (ticket, path) in [(1, "/t"), (8, "/t/a"), (9, "/t/b")] {
            let path = String::from(path);
            tree.update(TreeUpdate::MemberAdded { ticket, path });
        }
        let machine = Machine::open(Duration::from_secs(10), 1, 1).unwrap();
        (shown, tree, machine)
    }

    fn trouble(path: &str, kind: impl Into<ErrorKind>) -> Error {
        Error::about(Some(path), kind.into())
    }

    #[test]
    fn the_trouble_is_of_what_is_refused_still() {
        let (shown, mut tree, machine) = tree();
        let denied = |path| Some(trouble(path, Code::NO_AUTH));
        tree.update_member(9, DENIED, &machine);
        assert_eq!(shown.trouble(), denied("/t/b"));
        tree.update_member(8, DENIED, &machine);
        assert_eq!(shown.trouble(), denied("/t/a"));
        tree.update_member(8, SubjectUpdate::Good, &machine);
        assert_eq!(shown.trouble(), denied("/t/b"));
        assert!(tree.takes_news() && !tree.takes_news());
        tree.update(TreeUpdate::MemberRemoved { ticket: 9 });
        assert_eq!((shown.trouble(), tree.takes_news()), (None, false));
        for ticket in [2, 9] {
            tree.update_member(ticket, DENIED, &machine);
        }
        assert_eq!(shown.trouble(), None, "those are not of the tree");
    }

    #[test]
    fn what_is_only_to_be_asked_again_is_no_trouble() {
        let (shown, mut tree, machine) = tree();
        tree.update_member(8, DENIED, &machine);
        for reason in [
            Refusal::Code(Code::THROTTLED),
            Refusal::Code(Code::NO_NODE),
            Refusal::Closed,
        ] {
            tree.update_member(8, SubjectUpdate::Refused(reason), &machine);
            assert_eq!(shown.trouble(), None, "{reason:?}");
        }
    }

    #[test]
    fn more_nodes_than_wanted_are_a_trouble_until_there_are_fewer() {
        let (shown, mut tree, machine) = tree();
        let bounded = |is_bounded| TreeUpdate::BoundReached { is_bounded };
        tree.update(bounded(true));
        assert_eq!(shown.trouble(), Some(trouble("/t", Fault::TooManyNodes)));
        tree.update_member(8, DENIED, &machine);
        assert_eq!(shown.trouble(), Some(trouble("/t", Fault::TooManyNodes)));
        tree.update(bounded(false));
        assert_eq!(shown.trouble(), Some(trouble("/t/a", Code::NO_AUTH)));
        tree.begin_again();
        tree.update(bounded(true));
        tree.update(bounded(false));
        assert_eq!(shown.trouble(), None, "another machine has refused nothing");
    }

    #[test]
    fn a_report_ends_what_is_current_and_a_look_where_it_is_of_the_tree() {
        let (shown, mut tree, _) = tree();
        for (path, is_of_tree) in [
            ("/app/t", true),
            ("/app/t/a", true),
            ("/app/ta", false),
            ("/app", false),
        ] {
            show(&shown, 1);
            tree.update(TreeUpdate::Complete);
            tree.note_report(path);
            let is_over = (shown.current().is_none(), tree.deadline().is_none());
            assert_eq!(is_over, (is_of_tree, is_of_tree), "{path}");
        }
    }

    /// Looks, and shows a snapshot of this zxid.
    fn show(shown: &TreeView, zxid: i64) {
        let number = shown.state().begin_copy();
        shown.state().show(number, snapshot(zxid));
    }

    #[test]
    fn what_has_ended_since_it_was_copied_is_not_current() {
        let shown = TreeView::of("/t");
        let number = shown.state().begin_copy();
        shown.state().invalidate();
        shown.state().show(number, snapshot(1));
        assert_eq!((shown.current(), shown.latest()), (None, Some(snapshot(1))));
        let [first, second] = [0; 2].map(|_| shown.state().begin_copy());
        shown.state().show(second, snapshot(3));
        let passed = shown.state().show(first, snapshot(2));
        assert_eq!(
            (passed, shown.current()),
            (Some(snapshot(2)), Some(snapshot(3)))
        );
    }

    /// A snapshot without nodes, as of this zxid.
    fn snapshot(zxid: i64) -> TreeSnapshot {
        let nodes = Vec::new();
        TreeSnapshot::new("/t", Subtree { zxid, nodes })
    }

    #[test]
    fn news_come_in_the_order_in_which_they_were() {
        let shown = TreeView::of("/t");
        let none = || trouble("/t", Code::NO_NODE);
        assert_eq!(shown.news_after(0), None);
        show(&shown, 1);
        show(&shown, 2);
        assert!(shown.state().set_trouble(Some(none())));
        let first = shown.news_after(0).unwrap();
        assert_eq!(first.1, Ok(snapshot(2)), "the newest of several");
        let second = shown.news_after(first.0).unwrap();
        assert_eq!(second.1, Err(none()));
        assert_eq!(shown.news_after(second.0), None);
        show(&shown, 3);
        let third = shown.news_after(second.0).unwrap();
        assert_eq!((third.1, shown.trouble()), (Ok(snapshot(3)), None));
        assert_eq!(shown.news_after(third.0), None);
        assert_eq!(shown.news_after(0), Some((third.0, Ok(snapshot(3)))));
    }

    #[test]
    fn a_trouble_is_told_once_and_ends_what_is_current() {
        let shown = TreeView::of("/t");
        show(&shown, 1);
        assert_eq!(shown.current(), Some(snapshot(1)));
        let set_trouble = |code: Code| shown.state().set_trouble(Some(trouble("/t", code)));
        assert!(set_trouble(Code::NO_NODE));
        assert_eq!((shown.current(), shown.latest()), (None, Some(snapshot(1))));
        let (told, _) = shown.news_after(1).unwrap();
        assert!(!set_trouble(Code::NO_NODE));
        assert_eq!(shown.news_after(told), None);
        assert!(set_trouble(Code::NO_AUTH));
        let (told, other) = shown.news_after(told).unwrap();
        assert_eq!(other, Err(trouble("/t", Code::NO_AUTH)));
        assert!(!shown.state().set_trouble(None));
        assert_eq!((shown.trouble(), shown.news_after(told)), (None, None));
    }
}
