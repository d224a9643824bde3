//! The trees that a session follows.

use super::{Engine, NEVER};
use crate::dispatch::{SubjectUpdate, TreeUpdate};
use crate::fault::Fault;
use crate::moment::Moment;
use crate::tree_view::{FollowedTree, TreeView};
use std::sync::Arc;

/// Which trees the machine follows.
impl Engine {
    /// Follows the tree at a path, for as long as someone has a handle of its view.
    pub(crate) fn open_tree(&mut self, path: &str, most: usize) -> Result<Arc<TreeView>, Fault> {
        let root = self.chroot.outer(path)?.into_owned();
        let checked = self.machine.data_mark(&root);
        checked.map_err(|fault| fault.at(path))?;
        let (shown, ticket) = (Arc::new(TreeView::of(path)), self.calls.next_ticket());
        let tree = FollowedTree::new(Arc::downgrade(&shown), ticket, root.clone(), most);
        self.trees.insert(ticket, tree);
        match self.follow_tree(ticket, &root, most) {
            Err(fault) if !fault.is_final() => {
                self.trees.remove(&ticket);
                Err(fault.at(path))
            }
            // If the machine halts, the next caller gets the fault, and the next machine follows the tree.
            Ok(()) | Err(_) => Ok(shown),
        }
    }

    fn follow_tree(&mut self, ticket: u64, root: &str, most: usize) -> Result<(), Fault> {
        if self.is_over() {
            return Ok(());
        }
        self.step(self.now(), |machine, now| {
            machine.follow_tree(now, ticket, root, most)
        })
    }

    /// Another machine follows the trees of the one before.
    pub(super) fn follow_trees_again(&mut self) {
        let trees = self.trees.iter();
        let roots: Vec<_> = trees
            .map(|(ticket, tree)| (*ticket, tree.root.clone(), tree.most))
            .collect();
        for (ticket, root, most) in roots {
            // If the machine halts, the next caller gets the fault.
            let _ = self.follow_tree(ticket, &root, most);
        }
    }

    /// Stops following the trees that have no handle left.
    fn unfollow_unwanted_trees(&mut self) {
        let trees = self.trees.iter();
        let unwanted: Vec<_> = trees
            .filter(|(_, tree)| !tree.is_wanted())
            .map(|(ticket, _)| *ticket)
            .collect();
        for ticket in unwanted {
            self.trees.remove(&ticket);
            if !self.is_over() {
                // If the machine halts, the next caller gets the fault.
                let _ = self.step(self.now(), |machine, now| {
                    machine.unfollow_tree(now, ticket)
                });
            }
        }
    }
}

/// Their updates and copies.
impl Engine {
    /// The machine reports a change of the tree of this ticket.
    pub(super) fn update_tree(&mut self, ticket: u64, news: TreeUpdate) {
        if let Some(tree) = self.trees.get_mut(&ticket) {
            tree.update(news);
        }
    }

    /// The machine reports a change of the subject of this ticket, which may be a member of a tree.
    pub(super) fn update_tree_members(&mut self, ticket: u64, shows: SubjectUpdate) {
        for tree in self.trees.values_mut() {
            tree.update_member(ticket, shows, &self.machine);
        }
    }

    /// Copies the trees that are complete and due.
    #[inline]
    pub(crate) fn update_trees(&mut self) {
        if !self.trees.is_empty() {
            self.update_each_tree();
        }
    }

    fn update_each_tree(&mut self) {
        self.unfollow_unwanted_trees();
        let (is_over, may_look) = (self.is_over(), self.may_look());
        for tree in self.trees.values_mut() {
            if is_over {
                tree.invalidate();
            }
            if may_look {
                let copy = tree.copy_if_due(&self.machine, &self.chroot, self.clock);
                self.tree_copies.extend(copy);
            }
        }
    }

    fn may_look(&self) -> bool {
        self.is_connected() && !self.is_closing()
    }

    /// When a tree is to be copied even if nothing comes from the server.
    #[inline]
    pub(super) fn tree_deadline(&self) -> Moment {
        if self.trees.is_empty() {
            return NEVER;
        }
        self.deadline_of_trees()
    }

    fn deadline_of_trees(&self) -> Moment {
        if !self.may_look() {
            return NEVER;
        }
        let deadlines = self.trees.values().filter_map(FollowedTree::deadline);
        deadlines.min().unwrap_or(NEVER)
    }

    /// Whether a tree has news since the last call of this.
    pub(super) fn takes_tree_news(&mut self) -> bool {
        let trees = self.trees.values_mut();
        trees.fold(false, |is_news, tree| tree.takes_news() | is_news)
    }
}
