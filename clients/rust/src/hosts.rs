//! The servers, and their addresses.

use crate::chroot::Chroot;
use crate::connection;
use crate::fault::Fault;
use std::collections::hash_map::RandomState;
use std::collections::HashSet;
use std::convert::Infallible;
use std::error;
use std::fmt;
use std::hash::{BuildHasher, Hasher};
use std::io::{self, ErrorKind};
use std::net::{SocketAddr, ToSocketAddrs};
use std::str::FromStr;
use std::vec;

/// The port of a host without one.
const USUAL_PORT: u16 = 2181;

/// A random number, seeded by the system.
pub(crate) fn random() -> u64 {
    RandomState::new().build_hasher().finish()
}

/// A host: its name, which may be an address, and its port.
#[derive(Clone, Debug, PartialEq, Eq)]
pub(crate) struct Host {
    pub(crate) name: String,
    port: u16,
}

/// The hosts of an ensemble and a session's chroot: what ZooKeeper calls a connection string.
///
/// It is a list of `HOST:PORT`. The port may be left out if it is 2181; an IPv6 address is in brackets. A path after the list is the
/// chroot, at which all paths of a program begin, those that it gives and those that it gets. Its node has to exist.
///
/// A name is looked up at each attempt to connect. [`Session::open`](crate::Session::open) takes a text as it is, and addresses too.
///
/// ```
/// use dirwolleu::Hosts;
///
/// let hosts: Hosts = "zk1.example.org:2181,zk2.example.org,[::1]:2182/app".parse()?;
/// assert_eq!(hosts.chroot(), "/app");
/// assert_eq!(hosts.to_string(), "zk1.example.org:2181,zk2.example.org:2181,[::1]:2182/app");
/// assert!("zk1:2181,".parse::<Hosts>().is_err());
/// # Ok::<(), dirwolleu::HostsFault>(())
/// ```
#[derive(Clone, Debug, Default, PartialEq, Eq)]
pub struct Hosts {
    hosts: Vec<Host>,
    chroot: Chroot,
}

/// Why a text is no list of hosts.
///
/// ```
/// use dirwolleu::{Hosts, HostsFault};
///
/// let fault = "zk1:2181,zk2:port".parse::<Hosts>().unwrap_err();
/// assert_eq!(fault, HostsFault::NotHost("zk2:port".into()));
/// assert_eq!(fault.to_string(), "'zk2:port' is no HOST:PORT");
/// ```
#[derive(Clone, Debug, PartialEq, Eq)]
#[non_exhaustive]
pub enum HostsFault {
    /// This is no host with a port.
    NotHost(String),
    /// This is no path of a node.
    NotPath(String),
}

impl fmt::Display for HostsFault {
    fn fmt(&self, f: &mut fmt::Formatter<'_>) -> fmt::Result {
        match self {
            HostsFault::NotHost(text) => write!(f, "'{text}' is no HOST:PORT"),
            HostsFault::NotPath(text) => Fault::not_path(text).fmt(f),
        }
    }
}

impl error::Error for HostsFault {}

impl From<Infallible> for HostsFault {
    fn from(never: Infallible) -> HostsFault {
        match never {}
    }
}

impl Host {
    /// The host of a text. `None` if it is no host.
    fn of(text: &str) -> Option<Host> {
        let (name, port) = match text.strip_prefix('[') {
            Some(rest) => rest.split_once(']')?,
            None => text.split_at(text.find(':').unwrap_or(text.len())),
        };
        let port = match port.strip_prefix(':') {
            Some(digits) if digits.starts_with(|one: char| one.is_ascii_digit()) => {
                digits.parse().ok()?
            }
            None if port.is_empty() => USUAL_PORT,
            _ => return None,
        };
        let is_name =
            !name.is_empty() && !name.contains(|one: char| one.is_whitespace() || one == '[');
        is_name.then(|| Host {
            name: String::from(name),
            port,
        })
    }

    fn look_up(&self) -> io::Result<Vec<SocketAddr>> {
        Ok((self.name.as_str(), self.port).to_socket_addrs()?.collect())
    }
}

impl fmt::Display for Host {
    fn fmt(&self, f: &mut fmt::Formatter<'_>) -> fmt::Result {
        if self.name.contains(':') {
            write!(f, "[{}]:{}", self.name, self.port)
        } else {
            write!(f, "{}:{}", self.name, self.port)
        }
    }
}

impl Hosts {
    /// The chroot, which is empty if the session sees all nodes.
    pub fn chroot(&self) -> &str {
        self.chroot.as_str()
    }

    pub(crate) fn root(&self) -> &Chroot {
        &self.chroot
    }

    /// The number of hosts.
    pub(crate) fn len(&self) -> usize {
        self.hosts.len()
    }

    pub(crate) fn has(&self, host: &Host) -> bool {
        self.hosts.contains(host)
    }
}

impl FromStr for Hosts {
    type Err = HostsFault;

    fn from_str(text: &str) -> Result<Hosts, HostsFault> {
        let (list, path) = text.split_at(text.find('/').unwrap_or(text.len()));
        let host = |text: &str| {
            let text = text.trim();
            Host::of(text).ok_or_else(|| HostsFault::NotHost(String::from(text)))
        };
        Ok(Hosts {
            hosts: list.split(',').map(host).collect::<Result<_, _>>()?,
            chroot: Chroot::of(path).ok_or_else(|| HostsFault::NotPath(String::from(path)))?,
        })
    }
}

impl fmt::Display for Hosts {
    fn fmt(&self, f: &mut fmt::Formatter<'_>) -> fmt::Result {
        for (index, host) in self.hosts.iter().enumerate() {
            write!(f, "{}{host}", if index == 0 { "" } else { "," })?;
        }
        f.write_str(self.chroot())
    }
}

impl FromIterator<SocketAddr> for Hosts {
    fn from_iter<I: IntoIterator<Item = SocketAddr>>(addresses: I) -> Hosts {
        let host = |address: SocketAddr| Host {
            name: address.ip().to_string(),
            port: address.port(),
        };
        Hosts {
            hosts: addresses.into_iter().map(host).collect(),
            chroot: Chroot::default(),
        }
    }
}

/// Makes hosts without a chroot from lists of addresses.
macro_rules! from_addresses {
    ($($list:ty $(, $size:ident)?;)*) => {$(
        impl$(<const $size: usize>)? From<$list> for Hosts {
            fn from(addresses: $list) -> Hosts {
                addresses.into_iter().collect()
            }
        }
    )*};
}

from_addresses! {
    [SocketAddr; N], N;
    Vec<SocketAddr>;
    vec::IntoIter<SocketAddr>;
}

impl From<SocketAddr> for Hosts {
    fn from(address: SocketAddr) -> Hosts {
        Hosts::from([address])
    }
}

impl TryFrom<&str> for Hosts {
    type Error = HostsFault;

    fn try_from(text: &str) -> Result<Hosts, HostsFault> {
        text.parse()
    }
}

impl TryFrom<&String> for Hosts {
    type Error = HostsFault;

    fn try_from(text: &String) -> Result<Hosts, HostsFault> {
        text.parse()
    }
}

impl TryFrom<String> for Hosts {
    type Error = HostsFault;

    fn try_from(text: String) -> Result<Hosts, HostsFault> {
        text.parse()
    }
}

/// The order in which to dial hosts.
#[derive(Clone, Copy, Debug, PartialEq, Eq)]
pub(crate) enum DialOrder {
    /// At random.
    Shuffled,
    /// As the list has them.
    AsListed,
}

/// Which host has which place. The machine expects hosts of the last list first. It names places in a random order, one after the other,
/// and keeps to it. So to dial hosts in the order of the list, each place gets the next host when it is first named.
#[derive(Debug)]
pub(crate) struct Places {
    order: DialOrder,
    named: Vec<usize>,
}

impl Places {
    pub(crate) fn new(order: DialOrder) -> Places {
        let named = Vec::new();
        Places { order, named }
    }

    /// Begins again, for another machine.
    pub(crate) fn begin_again(&mut self) {
        self.named.clear();
    }

    /// Changes the list. Returns how many of its hosts were in the last one.
    pub(crate) fn change(&mut self, before: &Hosts, hosts: &Hosts) -> usize {
        let is_kept = |index: &usize| before.hosts.contains(&hosts.hosts[*index]);
        let (mut places, added): (Vec<usize>, Vec<usize>) = (0..hosts.len()).partition(is_kept);
        let kept = places.len();
        places.extend(added);
        self.named = match self.order {
            DialOrder::Shuffled => places,
            DialOrder::AsListed => Vec::new(),
        };
        kept
    }

    /// The host of this list at a place that the machine names.
    pub(crate) fn host(&mut self, hosts: &Hosts, place: usize) -> Option<Host> {
        let index = match self.order {
            DialOrder::Shuffled => self.named.get(place).copied().unwrap_or(place),
            DialOrder::AsListed => self.index_of(place),
        };
        hosts.hosts.get(index).cloned()
    }

    fn index_of(&mut self, place: usize) -> usize {
        let known = self.named.iter().position(|named| *named == place);
        known.unwrap_or_else(|| {
            self.named.push(place);
            self.named.len() - 1
        })
    }
}

/// The addresses of hosts. If a name has several, each has its turn.
#[derive(Debug)]
pub(crate) struct Addresses {
    order: DialOrder,
    dialled: HashSet<SocketAddr>,
}

impl Addresses {
    pub(crate) fn new(order: DialOrder) -> Addresses {
        let dialled = HashSet::new();
        Addresses { order, dialled }
    }

    /// An address at which to dial a host now, after a look-up of its name.
    pub(crate) fn of(&mut self, host: &Host) -> io::Result<SocketAddr> {
        let found = host.look_up();
        let found = found.map_err(|fault| connection::fault_of(host, &fault))?;
        let random = match self.order {
            DialOrder::Shuffled => random(),
            DialOrder::AsListed => 0,
        };
        let address = self.next_of(&found, random);
        address.ok_or_else(|| io::Error::new(ErrorKind::NotFound, format!("{host}: no address")))
    }

    /// Picks an address that was not dialled since all of them were, and notes that it is.
    fn next_of(&mut self, found: &[SocketAddr], random: u64) -> Option<SocketAddr> {
        if found.iter().all(|address| self.dialled.contains(address)) {
            self.dialled.retain(|address| !found.contains(address));
        }
        let new = found.iter().filter(|one| !self.dialled.contains(one));
        let new: Vec<SocketAddr> = new.copied().collect();
        let index = usize::try_from(random).unwrap_or_default() % new.len().max(1);
        let address = *new.get(index)?;
        self.dialled.insert(address);
        Some(address)
    }
}

#[cfg(test)]
mod tests {
    use super::{Addresses, DialOrder, Hosts, HostsFault, Places};
    use std::net::SocketAddr;

    #[test]
    fn hosts_are_read() {
        let rows = [
            ("a:1", "a:1"),
            ("a", "a:2181"),
            ("a:1, b:2 ,c", "a:1,b:2,c:2181"),
            ("[::1]:5/x/y", "[::1]:5/x/y"),
            ("[fe80::1]", "[fe80::1]:2181"),
            ("a:1/", "a:1"),
        ];
        for (text, shown) in rows {
            let hosts = text.parse::<Hosts>();
            assert_eq!(hosts.map(|hosts| hosts.to_string()).as_deref(), Ok(shown));
        }
    }

    #[test]
    fn what_is_no_list_is_refused() {
        for text in [
            "", ",", "a:1,", "a:", ":1", "a:65536", "::1", "[::1", "[]:1", "a:+1", "a:1:2",
            "a b:1", "[::1]x",
        ] {
            let fault = text.parse::<Hosts>();
            assert!(
                matches!(fault, Err(HostsFault::NotHost(_))),
                "{text}: {fault:?}"
            );
        }
        let fault = "a:1//x".parse::<Hosts>();
        assert_eq!(fault, Err(HostsFault::NotPath("//x".into())));
    }

    fn named(hosts: &Hosts, order: DialOrder, places: &[usize]) -> Vec<String> {
        let mut of_places = Places::new(order);
        let mut host = |place: &usize| of_places.host(hosts, *place).unwrap().name;
        places.iter().map(&mut host).collect()
    }

    #[test]
    fn a_place_is_that_of_the_list_or_the_next_of_the_list() {
        let hosts = "a:1,b:1,c:1".parse().unwrap();
        let places = [2, 0, 1, 2, 0];
        let shuffled = named(&hosts, DialOrder::Shuffled, &places);
        assert_eq!(shuffled, ["c", "a", "b", "c", "a"]);
        let listed = named(&hosts, DialOrder::AsListed, &places);
        assert_eq!(listed, ["a", "b", "c", "a", "b"]);
        let mut none = Places::new(DialOrder::AsListed);
        assert_eq!(none.host(&Hosts::default(), 0), None);
    }

    #[test]
    fn hosts_that_were_listed_before_have_the_first_places() {
        let before = "a:1,b:1".parse().unwrap();
        let hosts = "d:1,b:1,b:2,a:1".parse().unwrap();
        let rows = [
            (DialOrder::Shuffled, ["b:1", "a:1", "d:1", "b:2"]),
            (DialOrder::AsListed, ["d:1", "b:1", "b:2", "a:1"]),
        ];
        for (order, wanted) in rows {
            let mut places = Places::new(order);
            assert_eq!(places.change(&before, &hosts), 2);
            let named = [0, 1, 2, 3].map(|place| places.host(&hosts, place).unwrap());
            assert_eq!(named.map(|host| host.to_string()), wanted);
        }
    }

    #[test]
    fn each_address_of_a_name_has_its_turn() {
        let found: Vec<_> = [1, 2, 3]
            .map(|last| SocketAddr::from(([10, 0, 0, last], 1)))
            .into();
        let mut addresses = Addresses::new(DialOrder::AsListed);
        let listed: Vec<_> = (0..4).map(|_| addresses.next_of(&found, 0)).collect();
        let in_turn = [found[0], found[1], found[2], found[0]].map(Some);
        assert_eq!(listed, in_turn);
        let mut addresses = Addresses::new(DialOrder::Shuffled);
        for round in 0..5_u64 {
            let mut dialled: Vec<_> = (0..3)
                .map(|turn| addresses.next_of(&found, round * 7 + turn).unwrap())
                .collect();
            dialled.sort();
            assert_eq!(dialled, found);
        }
        assert_eq!(addresses.next_of(&[], 0), None);
    }

    #[test]
    fn an_address_is_looked_up_as_it_is() {
        let hosts: Hosts = "127.0.0.1:7".parse().unwrap();
        let mut addresses = Addresses::new(DialOrder::Shuffled);
        let address = addresses.of(&hosts.hosts[0]).unwrap();
        assert_eq!(address, SocketAddr::from(([127, 0, 0, 1], 7)));
    }
}
