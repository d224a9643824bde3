//! The kept answers of a machine.

use super::{Machine, State};
use crate::buffer::{copy_whole, copy_whole_in, spelled, text_of, texts_in};
use crate::cache::{mark_of, Children, DataAnswer, Kept, Mark};
use crate::fault::{done, Fault};
use crate::ffi::KeptData;
use crate::moment::Moment;
use crate::numbers::result;
use crate::path_fault::PathFault;
use crate::saved::SavedSession;
use crate::snapshot::{snapshot_in, Snapshot};
use crate::standing::{Contender, Standing};
use crate::subtree::{lacking_in, nodes_in, Lacking, Subtree};
use std::convert::Infallible;
use std::time::Duration;

/// Look-ups. They send nothing, and also work after [`Fault::Halted`], when nothing is kept.
impl Machine {
    /// Returns the first moment at which something is due: a ping, the end of an attempt, a dial, a read, a limit. `None` if nothing ever
    /// is. It changes with each step.
    pub fn deadline(&self) -> Option<Moment> {
        self.handle.deadline()
    }

    /// Returns the moment at which the server was last heard, on any connection, or `None` if it was not heard yet. Good answers were true
    /// at the server when it sent that, or later.
    pub fn heard_at(&self) -> Option<Moment> {
        self.handle.heard_at()
    }

    /// Returns the state.
    pub fn state(&self) -> State {
        self.state
    }

    /// Returns a number, from 1 on, that rises when good answers, the state or the session may have changed. While it is the same, a
    /// [subtree](Self::subtree), the [missing reads](Self::lacking) and a [snapshot](Self::snapshot) are the same, so look them up again
    /// only if it differs. The [last zxid](Self::last_zxid) may rise meanwhile. It rises by one at each step with bytes or another state,
    /// and if memory ran out within a step.
    pub fn revision(&self) -> u64 {
        self.handle.revision()
    }

    /// Returns the greatest zxid seen, at least 0. Good answers are what the servers' history has at it.
    pub fn last_zxid(&self) -> i64 {
        self.handle.last_zxid()
    }

    /// Returns the session's timeout: the one a server granted last, or else the one to ask for.
    pub fn timeout(&self) -> Duration {
        Duration::from_millis(self.handle.timeout_ms().unsigned_abs())
    }

    /// Returns the session, for [`resume`](Self::resume) to take up.
    ///
    /// # Errors
    ///
    /// Only [`Fault::NoMemory`].
    pub fn saved(&self) -> Result<SavedSession, Fault> {
        copy_whole(|room| self.handle.saved(room)).map(SavedSession::from_bytes)
    }

    /// Returns the kept data of a path that was read with a watch, or `None` if nothing is kept. It copies the data.
    ///
    /// # Errors
    ///
    /// [`Fault::NotPath`], [`Fault::NoMemory`] and [`Fault::UnknownNumber`].
    pub fn peek_data(&self, path: &str) -> Result<Option<Kept<DataAnswer>>, Fault> {
        let mut kept = KeptData::default();
        let data = copy_whole(|room| {
            kept = self.handle.peek_data(path, room)?;
            Ok::<_, Fault>(kept.length)
        })?;
        Ok(Kept::of_data(&kept, data)?)
    }

    /// Returns the mark of a path's kept data, or `None` if nothing is kept. It copies no data.
    ///
    /// # Errors
    ///
    /// As [`peek_data`](Self::peek_data).
    pub fn data_mark(&self, path: &str) -> Result<Option<Mark>, Fault> {
        Ok(mark_of(self.handle.peek_data(path, &mut [])?.mark)?)
    }

    /// Returns the kept names of a path's children that were read with a watch, or `None` if nothing is kept. It copies the names.
    ///
    /// # Errors
    ///
    /// As [`peek_data`](Self::peek_data).
    pub fn peek_children(&self, path: &str) -> Result<Option<Kept<Children>>, Fault> {
        let kept = self.handle.peek_children(path)?;
        let Some(mark) = mark_of(kept.mark)? else {
            return Ok(None);
        };
        let spelled = copy_whole(|room| self.handle.peek_names(path, room))?;
        let (names, pzxid) = (texts_in(kept.count, &spelled), kept.pzxid);
        Ok(Some(Kept {
            answer: Children { names, pzxid },
            mark,
        }))
    }

    /// Returns the mark of a path's kept children, or `None` if nothing is kept. It copies no names.
    ///
    /// # Errors
    ///
    /// As [`peek_data`](Self::peek_data).
    pub fn children_mark(&self, path: &str) -> Result<Option<Mark>, Fault> {
        Ok(mark_of(self.handle.peek_children(path)?.mark)?)
    }

    /// Returns all nodes at and below a path, at most this many, or `None` if some of them are not kept good: then make the reads that are
    /// [`lacking`](Self::lacking). There is a subtree exactly if the path, and each node that kept names lead to from there, is kept good
    /// with its data, and its names are kept good. It is the servers' subtree at that zxid, and no other node was there.
    ///
    /// # Errors
    ///
    /// As [`peek_data`](Self::peek_data), and [`Fault::TooManyNodes`] if names lead to more nodes.
    pub fn subtree(&self, path: &str, most: usize) -> Result<Option<Subtree>, Fault> {
        match copy_whole(|room| self.handle.subtree(path, most, room)) {
            Ok(spelled) => Ok(Some(Subtree {
                zxid: self.last_zxid(),
                nodes: nodes_in(&spelled),
            })),
            Err(Fault::NotWhole) => Ok(None),
            Err(other) => Err(other),
        }
    }

    /// Returns the reads, with a watch, that are still missing before there is a [`subtree`](Self::subtree) of a path with at most this
    /// many nodes: none exactly if there is one. You can make all of them at once; the nodes below one show when its names are there.
    ///
    /// # Errors
    ///
    /// As [`peek_data`](Self::peek_data), [`Fault::TooManyNodes`], and [`Fault::NotWhole`] if a name makes no path, so that no read helps.
    pub fn lacking(&self, path: &str, most: usize) -> Result<Vec<Lacking>, Fault> {
        let spelled = copy_whole(|room| self.handle.lacking(path, most, room))?;
        Ok(lacking_in(&spelled))
    }

    /// Returns the kept data of the nodes at the first paths, and the kept names below the second ones, or `None` if some of them are not
    /// kept good: then read those again, with a watch. All of it is of one moment: what the servers' history has at that zxid. For a node
    /// that does not exist, [`exists`](Self::exists) keeps its absence.
    ///
    /// # Errors
    ///
    /// As [`peek_data`](Self::peek_data), for the first of them that is no path.
    pub fn snapshot(&self, nodes: &[&str], parents: &[&str]) -> Result<Option<Snapshot>, Fault> {
        let [spelled_nodes, spelled_parents] =
            [nodes, parents].map(|paths| spelled(paths.iter().copied()));
        let found = copy_whole(|room| {
            let (code, count) = self.handle.snapshot(&spelled_nodes, &spelled_parents, room);
            if code == result::NOT_PATH {
                return Err(no_path_among(nodes.iter().chain(parents)));
            }
            done(code).map(|()| count)
        });
        match found {
            Ok(bytes) => Ok(Some(snapshot_in(self.last_zxid(), nodes.len(), &bytes)?)),
            Err(Fault::NotWhole) => Ok(None),
            Err(other) => Err(other),
        }
    }

    /// Returns whether the session comes first in a directory by its node there, and by one listing of it that needs no watch. It is
    /// [`First`](Standing::First) if the node's kept data, or the kept answer that it exists, is good, its owner is this session, no listed
    /// rival is before it, and the listing is neither older than the node nor newer than [`last_zxid`](Self::last_zxid). It stays first
    /// while the node's kept answer is good, if numbers rise with creation.
    ///
    /// # Errors
    ///
    /// As [`peek_data`](Self::peek_data), for the directory and for the name.
    pub fn standing(&self, contender: &Contender<'_>) -> Result<Standing, Fault> {
        let names = spelled(contender.names.iter().map(String::as_str));
        let (own, against) = (contender.markers.own, contender.markers.against);
        let markers = spelled([own].into_iter().chain(against.iter().copied()));
        let (mut code, mut token) = (0, 0);
        let rival = copy_whole(|room| {
            let found = self.handle.standing(contender, &names, &markers, room)?;
            (code, token) = (found.0, found.1);
            Ok::<_, Fault>(found.2)
        })?;
        Ok(match code {
            result::OK => Standing::First { token },
            result::WAITS => Standing::After {
                rival: text_of(rival),
            },
            _ => Standing::Unsure,
        })
    }

    /// Returns the token with which the session holds the first place in a directory by its node at this path, or `None` if that is not
    /// shown. It is shown if the names below the directory are kept good, the path is right below it, its name begins with the prefix, and
    /// no other name with the prefix is before it in byte order; and if the node's kept data, or the kept answer that it exists, is good,
    /// and its owner is this session. Whatever the lock protects refuses a token below one that it has seen.
    ///
    /// # Errors
    ///
    /// As [`peek_data`](Self::peek_data), for the directory and for the path.
    pub fn holder(&self, directory: &str, prefix: &str, path: &str) -> Result<Option<i64>, Fault> {
        match self.handle.holder(directory, prefix, path) {
            (result::NONE, _) => Ok(None),
            (result::NOT_PATH, _) => Err(no_path_among([&directory, &path])),
            (code, token) => done(code).map(|()| Some(token)),
        }
    }

    /// Returns the token with which the session holds by the contender of this ticket, or `None` if that is not shown. It is shown if no
    /// rival is before its place in a listing that was answered after the place existed, and the place is kept good and belongs to this
    /// session. So it is at the [last zxid](Self::last_zxid). Without a connection it stays so; [`heard_at`](Self::heard_at) says how old
    /// that is.
    pub fn held(&self, ticket: u64) -> Option<i64> {
        self.handle.held(ticket)
    }

    /// Returns the path of the place of the contender with this ticket, or `None` if it is not known.
    pub fn place(&self, ticket: u64) -> Option<String> {
        let place = copy_whole(|room| Ok::<_, Infallible>(self.handle.place(ticket, room)));
        let place = place.unwrap_or_default();
        (!place.is_empty()).then(|| text_of(place))
    }

    /// A [`subtree`](Machine::subtree) as the library spells it. When a tree is looked up again, it is mostly as long as before: it gets
    /// more room than that.
    pub(crate) fn spelled_subtree(
        &self,
        path: &str,
        most: usize,
        room: &mut usize,
    ) -> Result<Option<Vec<u8>>, Fault> {
        match copy_whole_in(*room, |room| self.handle.subtree(path, most, room)) {
            Ok(spelled) => {
                *room = (*room).max(spelled.len() + spelled.len() / 8);
                Ok(Some(spelled))
            }
            Err(Fault::NotWhole) => Ok(None),
            Err(other) => Err(other),
        }
    }
}

/// The fault of the first of these texts that is no path.
fn no_path_among<'a>(paths: impl IntoIterator<Item = &'a &'a str>) -> Fault {
    let mut paths = paths.into_iter();
    Fault::not_path(
        paths
            .find(|path| PathFault::of(path).is_some())
            .unwrap_or(&""),
    )
}
