//! Calls whose records this crate writes and parses, as `zookeeper.jute` has them. The core carries them, and looks at no byte of them.

use crate::acl::Acl;
use crate::answer::{Answer, Content, Outcome, RawAnswer};
use crate::chroot::Chroot;
use crate::fault::Fault;
use crate::jute::{Reader, Writer};
use crate::multi_read::{self, Read};
use crate::node::Mode;
use crate::numbers::operation;
use crate::transaction::{self, Operation};
use std::time::Duration;

/// An operation for [`Machine::raw`](crate::Machine::raw), with the name that ZooKeeper's `ZooDefs.OpCode` has for the type of its request.
/// None of these leaves or removes a watch, or begins or ends a session, and the machine makes none of them by itself.
///
/// ```
/// use dirwolleu::{Machine, Moment, RawOperation};
/// use std::time::Duration;
///
/// let now = Moment::from_millis(1_000);
/// let mut machine = Machine::open(Duration::from_secs(9), 1, 42)?;
/// let body = [0, 0, 0, 2, b'/', b'a']; // a SyncRequest: the path after its length
/// let _ = machine.raw(now, 1, None, RawOperation::Sync, &body)?;
/// # Ok::<(), dirwolleu::Fault>(())
/// ```
#[derive(Clone, Copy, Debug, PartialEq, Eq, Hash)]
#[non_exhaustive]
#[repr(i32)]
pub enum RawOperation {
    /// Reads the ACL of a node. It changes nothing, like [`Sync`](RawOperation::Sync) and those from [`MultiRead`](RawOperation::MultiRead)
    /// on: these are repeated if they are lost.
    GetAcl = operation::GET_ACL,
    /// Sets the ACL of a node.
    SetAcl = operation::SET_ACL,
    /// Makes the server catch up with the leader.
    Sync = operation::SYNC,
    /// Makes changes together or not at all. A failure is no error of the reply: its codes are in the body.
    Multi = operation::MULTI,
    /// Creates a node, and returns its path and `Stat`: since ZooKeeper 3.5.
    Create2 = operation::CREATE2,
    /// Creates a container.
    CreateContainer = operation::CREATE_CONTAINER,
    /// Creates a node with a time to live.
    CreateTtl = operation::CREATE_TTL,
    /// Reads several nodes at one zxid: since ZooKeeper 3.6.
    MultiRead = operation::MULTI_READ,
    /// Lists the ephemeral nodes of the session.
    GetEphemerals = operation::GET_EPHEMERALS,
    /// Counts the nodes below one.
    GetAllChildrenNumber = operation::GET_ALL_CHILDREN_NUMBER,
    /// Lists the identities under which the server knows the client: since ZooKeeper 3.7.
    WhoAmI = operation::WHO_AM_I,
}

impl RawOperation {
    /// The number in the protocol.
    pub(crate) fn number(self) -> i32 {
        self as i32
    }
}

/// Flags of a create besides those of a [`Mode`].
const CONTAINER: i32 = 4;
const WITH_TTL: i32 = 5;
const SEQUENTIAL_WITH_TTL: i32 = 6;

/// How long a node lives.
#[derive(Clone, Copy, PartialEq, Eq)]
pub(crate) enum Lifetime {
    /// As long as its mode says.
    Mode(Mode),
    /// Until its last child is gone.
    Container,
    /// Until it has had no change and no children for this long.
    Ttl { mode: Mode, ttl: Duration },
}

impl Lifetime {
    fn is_sequential(self) -> bool {
        match self {
            Lifetime::Mode(mode) | Lifetime::Ttl { mode, .. } => mode.is_sequential(),
            Lifetime::Container => false,
        }
    }

    fn operation(self) -> RawOperation {
        match self {
            Lifetime::Mode(_) => RawOperation::Create2,
            Lifetime::Container => RawOperation::CreateContainer,
            Lifetime::Ttl { .. } => RawOperation::CreateTtl,
        }
    }

    /// Writes the flags, and then the time to live in milliseconds if there is one. An ephemeral node has none.
    fn spell(self, spelled: &mut Writer) -> Result<(), Fault> {
        match self {
            Lifetime::Mode(mode) => {
                spelled.int(mode.flags());
            }
            Lifetime::Container => {
                spelled.int(CONTAINER);
            }
            Lifetime::Ttl { mode, ttl } => {
                let flags = match mode {
                    Mode::Persistent => WITH_TTL,
                    Mode::PersistentSequential => SEQUENTIAL_WITH_TTL,
                    Mode::Ephemeral | Mode::EphemeralSequential => {
                        return Err(Fault::EphemeralWithTtl)
                    }
                };
                let millis = i64::try_from(ttl.as_millis()).unwrap_or(i64::MAX);
                spelled.int(flags).long(millis);
            }
        }
        Ok(())
    }
}

/// A call that the core carries, without its path.
#[derive(Clone, PartialEq, Eq)]
pub(crate) enum RawCall {
    Sync,
    Acls,
    SetAcls {
        acls: Vec<Acl>,
        version: i32,
    },
    Create {
        data: Vec<u8>,
        acls: Vec<Acl>,
        lifetime: Lifetime,
    },
    Transaction(Vec<Operation>),
    Reads(Vec<Read>),
    Ephemerals,
    AllChildrenNumber,
    WhoAmI,
}

impl RawCall {
    /// Whether it leaves the servers unchanged, so that it is safe to repeat.
    pub(crate) fn is_read(&self) -> bool {
        !matches!(
            self,
            RawCall::SetAcls { .. } | RawCall::Create { .. } | RawCall::Transaction(_)
        )
    }

    /// Whether it is about the node at its path.
    pub(crate) fn has_node(&self) -> bool {
        !matches!(
            self,
            RawCall::Transaction(_) | RawCall::Reads(_) | RawCall::WhoAmI
        )
    }

    pub(crate) fn operation(&self) -> RawOperation {
        match self {
            RawCall::Sync => RawOperation::Sync,
            RawCall::Acls => RawOperation::GetAcl,
            RawCall::SetAcls { .. } => RawOperation::SetAcl,
            RawCall::Create { lifetime, .. } => lifetime.operation(),
            RawCall::Transaction(_) => RawOperation::Multi,
            RawCall::Reads(_) => RawOperation::MultiRead,
            RawCall::Ephemerals => RawOperation::GetEphemerals,
            RawCall::AllChildrenNumber => RawOperation::GetAllChildrenNumber,
            RawCall::WhoAmI => RawOperation::WhoAmI,
        }
    }

    /// The bytes after the header of its request.
    pub(crate) fn spell(&self, path: &str, root: &Chroot) -> Result<Vec<u8>, Fault> {
        let mut spelled = Writer::default();
        match self {
            RawCall::Sync | RawCall::Acls | RawCall::AllChildrenNumber => {
                spelled.text(&root.checked(path)?);
            }
            RawCall::SetAcls { acls, version } => {
                spelled.text(&root.checked(path)?).acls(acls).int(*version);
            }
            RawCall::Create {
                data,
                acls,
                lifetime,
            } => {
                let path = root.checked_create(path, lifetime.is_sequential())?;
                spelled.text(&path).buffer(data).acls(acls);
                lifetime.spell(&mut spelled)?;
            }
            RawCall::Transaction(operations) => {
                transaction::spell(operations, &mut spelled, root)?;
            }
            RawCall::Reads(reads) => multi_read::spell(reads, &mut spelled, root)?,
            RawCall::Ephemerals => {
                spelled.text(&root.checked_prefix(path)?);
            }
            RawCall::WhoAmI => {}
        }
        Ok(spelled.into_bytes())
    }

    /// Parses the bytes after the header of its reply. `None` if they do not parse.
    pub(crate) fn read(&self, body: &[u8], root: &Chroot) -> Option<Outcome> {
        let mut reply = Reader::new(body);
        let (mut found, mut records) = (Answer::default(), RawAnswer::default());
        match self {
            RawCall::Sync => drop(reply.text()?),
            RawCall::Acls => {
                records.acls = reply.acls()?;
                found.stat = reply.stat()?;
            }
            RawCall::SetAcls { .. } => found.stat = reply.stat()?,
            RawCall::Create { .. } => {
                found.content = Content::Path(root.inner(reply.text()?));
                found.stat = reply.stat()?;
            }
            RawCall::Transaction(operations) => {
                match transaction::read(operations, &mut reply, root)? {
                    Ok(changes) => records.changes = changes,
                    Err(refused) => return Some(Err(refused)),
                }
            }
            RawCall::Reads(reads) => records.answers = multi_read::read(reads, &mut reply)?,
            RawCall::Ephemerals => {
                let paths = reply.vector(Reader::text)?;
                records.paths = paths.into_iter().map(|path| root.inner(path)).collect();
            }
            RawCall::AllChildrenNumber => records.count = reply.int()?,
            RawCall::WhoAmI => records.ids = reply.vector(Reader::id)?,
        }
        if found.content == Content::Nothing {
            found.content = Content::Records(Box::new(records));
        }
        Some(Ok(found))
    }
}

#[cfg(test)]
mod tests {
    use super::{Lifetime, RawCall};
    use crate::acl::{Acl, Id, Permissions};
    use crate::answer::{Answer, Content, RawAnswer};
    use crate::chroot::Chroot;
    use crate::fault::{Code, Fault};
    use crate::multi_read::{Read, ReadAnswer};
    use crate::node::{Mode, Node, Stat};
    use crate::transaction::{Change, Operation};
    use std::time::Duration;

    fn app() -> Chroot {
        Chroot::of("/app").unwrap()
    }

    /// An int; below it, bytes after their length.
    fn int(number: i32) -> Vec<u8> {
        number.to_be_bytes().to_vec()
    }

    fn text(text: &str) -> Vec<u8> {
        let length = i32::try_from(text.len()).unwrap();
        [&int(length)[..], text.as_bytes()].concat()
    }

    /// A `MultiHeader`.
    fn header(number: i32, is_end: u8, code: i32) -> Vec<u8> {
        [int(number), vec![is_end], int(code)].concat()
    }

    /// A `Stat` whose bytes are 1 to 68.
    fn stat_bytes() -> Vec<u8> {
        (1..=68).collect()
    }

    fn stat() -> Stat {
        Stat {
            czxid: 0x0102_0304_0506_0708,
            mzxid: 0x090a_0b0c_0d0e_0f10,
            ctime: 0x1112_1314_1516_1718,
            mtime: 0x191a_1b1c_1d1e_1f20,
            version: 0x2122_2324,
            cversion: 0x2526_2728,
            aversion: 0x292a_2b2c,
            ephemeral_owner: 0x2d2e_2f30_3132_3334,
            data_length: 0x3536_3738,
            num_children: 0x393a_3b3c,
            pzxid: 0x3d3e_3f40_4142_4344,
        }
    }

    fn create(lifetime: Lifetime) -> RawCall {
        RawCall::Create {
            data: b"x".to_vec(),
            acls: vec![Acl::new(Permissions::READ, "ip", "::1")],
            lifetime,
        }
    }

    fn with_ttl(mode: Mode) -> RawCall {
        let ttl = Duration::from_millis(0x0102_0304);
        create(Lifetime::Ttl { mode, ttl })
    }

    fn set_acls() -> RawCall {
        RawCall::SetAcls {
            acls: vec![Acl::new(Permissions::READ, "ip", "::1")],
            version: 7,
        }
    }

    fn reads() -> RawCall {
        let path = || String::from("/a");
        RawCall::Reads(vec![
            Read::Data(path()),
            Read::Children(path()),
            Read::Data(path()),
        ])
    }

    fn change() -> RawCall {
        RawCall::Transaction(vec![Operation::Set {
            path: String::from("/a"),
            data: b"x".to_vec(),
            version: 7,
        }])
    }

    /// A create with this body after what all creates have.
    fn made(path: &str, rest: &[u8]) -> Vec<u8> {
        let acl = [int(1), int(1), text("ip"), text("::1")].concat();
        [&text(path), &text("x"), &acl, rest].concat()
    }

    #[test]
    fn each_request_is_spelled_as_the_protocol_has_it() {
        let acl = [int(1), int(1), text("ip"), text("::1")].concat();
        let set_acl = [text("/app/a"), acl, int(7)].concat();
        let read = |number| [header(number, 0, -1), text("/app/a"), vec![0]].concat();
        let (begin, end) = (header(5, 0, -1), header(-1, 1, -1));
        let set = [begin, text("/app/a"), text("x"), int(7), end.clone()];
        let plain = |mode| create(Lifetime::Mode(mode));
        let numbered = plain(Mode::EphemeralSequential);
        let ttl = |flags: u8| [0, 0, 0, flags, 0, 0, 0, 0, 1, 2, 3, 4];
        let numbered_ttl = with_ttl(Mode::PersistentSequential);
        for (call, path, body) in [
            (RawCall::Sync, "/", text("/app")),
            (RawCall::Acls, "/a", text("/app/a")),
            (set_acls(), "/a", set_acl),
            (plain(Mode::Ephemeral), "/a", made("/app/a", &int(1))),
            (numbered, "/a/", made("/app/a/", &int(3))),
            (create(Lifetime::Container), "/a", made("/app/a", &int(4))),
            (with_ttl(Mode::Persistent), "/a", made("/app/a", &ttl(5))),
            (numbered_ttl, "/", made("/app/", &ttl(6))),
            (change(), "/", set.concat()),
            (reads(), "/", [read(4), read(8), read(4), end].concat()),
            (RawCall::Ephemerals, "/", text("/app/")),
            (RawCall::AllChildrenNumber, "/a", text("/app/a")),
            (RawCall::WhoAmI, "/", Vec::new()),
        ] {
            let number = call.operation().number();
            assert_eq!(call.spell(path, &app()), Ok(body), "{number}");
        }
    }

    #[test]
    fn what_cannot_be_spelled_is_refused() {
        let root = Chroot::default();
        for path in ["a", "/a/"] {
            for call in [
                RawCall::Sync,
                RawCall::Ephemerals,
                create(Lifetime::Container),
            ] {
                assert_eq!(call.spell(path, &root), Err(Fault::not_path(path)));
            }
        }
        for mode in [Mode::Ephemeral, Mode::EphemeralSequential] {
            let refused = with_ttl(mode).spell("/a", &root);
            assert_eq!(refused, Err(Fault::EphemeralWithTtl));
        }
    }

    /// Each call, with the body of a reply and its answer; with its records, if they are its whole content.
    fn answers() -> Vec<(RawCall, Vec<u8>, Answer, RawAnswer)> {
        let (none, records) = (Answer::default, RawAnswer::default);
        let with_stat = || Answer {
            stat: stat(),
            ..none()
        };
        let (mut made, mut ephemerals, mut of_acls) = (with_stat(), records(), records());
        made.content = Content::Path(String::from("/a"));
        ephemerals.paths = ["/a", "/b"].map(String::from).to_vec();
        of_acls.acls = vec![Acl::new(Permissions::READ, "ip", "::1")];
        let body_of_acls = [int(1), int(1), text("ip"), text("::1"), stat_bytes()].concat();
        let body_of_create = [text("/app/a"), stat_bytes()].concat();
        let body_of_paths = [int(2), text("/app/a"), text("/app/b")].concat();
        vec![
            (RawCall::Sync, text("/app"), none(), records()),
            (set_acls(), stat_bytes(), with_stat(), records()),
            (RawCall::Acls, body_of_acls, with_stat(), of_acls),
            (create(Lifetime::Container), body_of_create, made, records()),
            (RawCall::Ephemerals, body_of_paths, none(), ephemerals),
        ]
    }

    /// The same for calls that bring only records.
    fn answers_of_records() -> Vec<(RawCall, Vec<u8>, Answer, RawAnswer)> {
        let (none, records) = (Answer::default, RawAnswer::default);
        let (data, stat) = (None, stat());
        let (mut changes, mut answers, mut count, mut ids) =
            (records(), records(), records(), records());
        changes.changes = vec![Change::Set(stat)];
        answers.answers = vec![
            Ok(ReadAnswer::Data(Node { data, stat })),
            Ok(ReadAnswer::Children(vec![String::from("b")])),
            Err(Code::NO_NODE),
        ];
        count.count = 9;
        let (scheme, id) = (String::from("digest"), String::from("ann"));
        ids.ids = vec![Id { scheme, id }];
        let body_of_changes = [header(5, 0, 0), stat_bytes(), header(-1, 1, -1)].concat();
        let body_of_reads = [
            [header(4, 0, 0), int(-1), stat_bytes()].concat(),
            [header(8, 0, 0), int(1), text("b")].concat(),
            [header(-1, 0, -101), int(-101)].concat(),
            header(-1, 1, -1),
        ];
        let body_of_ids = [int(1), text("digest"), text("ann")].concat();
        vec![
            (change(), body_of_changes, none(), changes),
            (reads(), body_of_reads.concat(), none(), answers),
            (RawCall::AllChildrenNumber, int(9), none(), count),
            (RawCall::WhoAmI, body_of_ids, none(), ids),
        ]
    }

    #[test]
    fn each_answer_is_read_as_the_protocol_has_it() {
        for (call, body, mut told, records) in answers().into_iter().chain(answers_of_records()) {
            let number = call.operation().number();
            if told.content == Content::Nothing {
                told.content = Content::Records(Box::new(records));
            }
            assert_eq!(call.read(&body, &app()), Some(Ok(told)), "{number}");
        }
    }

    #[test]
    fn no_part_of_an_answer_reads() {
        for (call, body, _, _) in answers().into_iter().chain(answers_of_records()) {
            let number = call.operation().number();
            for length in 0..body.len() {
                let read = call.read(&body[..length], &app());
                assert_eq!(read, None, "{number} {length}");
            }
        }
    }
}
