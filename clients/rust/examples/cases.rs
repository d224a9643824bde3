//! A session that obeys the lines of the table of cases, `clients/cases`: `cases HOSTS TRIES [RECORD]`.

use dirwolleu::{
    Acl, Follow, Kept, Lock, Mark, Mode, Observation, Permissions, Request, Retry, Session,
    SessionOptions, Sharing, Snapshots, SubtreeNode, TreeSnapshot,
};
use std::env;
use std::error::Error;
use std::io;
use std::time::Duration;

type Answer = Result<String, Box<dyn Error>>;

/// The state between two lines.
struct Told<'a> {
    session: &'a Session,
    followed: Option<Follow<'a>>,
    named: String,
    names: Option<Vec<String>>,
    tree: Option<Snapshots<'static>>,
    told: Option<String>,
    lock: Option<Lock<'a>>,
    token: i64,
}

fn data_of(word: &str) -> &[u8] {
    if word == "-" {
        b""
    } else {
        word.as_bytes()
    }
}

fn shown(data: Option<Vec<u8>>) -> String {
    String::from_utf8_lossy(&data.unwrap_or_default()).into_owned()
}

/// Permissions, by letters.
const LETTERS: [(char, Permissions); 5] = [
    ('r', Permissions::READ),
    ('w', Permissions::WRITE),
    ('c', Permissions::CREATE),
    ('d', Permissions::DELETE),
    ('a', Permissions::ADMIN),
];

/// The lines of an ACL: `SCHEME:ID:LETTERS` each.
fn acls_of(words: &[&str]) -> Result<Vec<Acl>, Box<dyn Error>> {
    let line = |word: &&str| {
        let mut parts = word.split(':');
        let (Some(scheme), Some(id), Some(letters)) = (parts.next(), parts.next(), parts.next())
        else {
            return Err("this is no line of an ACL".into());
        };
        let named = LETTERS.iter().filter(|one| letters.contains(one.0));
        let all = named.fold(Permissions::default(), |all, one| all | one.1);
        Ok(Acl::new(all, scheme, id))
    };
    words.iter().map(line).collect()
}

fn shown_acl(acl: &Acl) -> String {
    let named = LETTERS.iter().filter(|one| acl.permissions.contains(one.1));
    let letters: String = named.map(|one| one.0).collect();
    format!("{}:{}:{letters}", acl.scheme, acl.id)
}

/// Each node, in the byte order of their paths.
fn shown_tree(snapshot: &TreeSnapshot) -> String {
    let mut nodes: Vec<&SubtreeNode> = snapshot.iter().collect();
    nodes.sort_by_key(|node| &node.path);
    let shown = |node: &SubtreeNode| format!("{}={}", node.path, shown(node.data.clone()));
    nodes.into_iter().map(shown).collect::<Vec<_>>().join(" ")
}

impl Told<'_> {
    fn read(&self, name: &str, path: &str) -> Answer {
        Ok(match name {
            "get" => {
                let node = self.session.get(path)?;
                let version = node.stat.version;
                format!("data {} version {version}", shown(node.data))
            }
            "children" => {
                let (mut names, _) = self.session.children(path)?;
                names.sort();
                names.join(" ")
            }
            _ => match self.session.exists(path)? {
                Some(stat) => format!("version {}", stat.version),
                None => String::from("none"),
            },
        })
    }

    fn write(&self, name: &str, path: &str, word: &str) -> Answer {
        let mode = match name {
            "sequential" => Mode::PersistentSequential,
            "ephemeral" => Mode::Ephemeral,
            "create" => Mode::Persistent,
            _ => {
                self.session.delete(path, word.parse()?)?;
                return Ok(String::from("done"));
            }
        };
        Ok(self.session.create(path, data_of(word), mode)?)
    }

    fn next(&mut self) -> Answer {
        let followed = self.followed.as_mut().ok_or("nothing is followed")?;
        let node = followed.next().ok_or("the session is over")??;
        let data = node.map(|node| format!("data {}", shown(node.data)));
        Ok(data.unwrap_or_else(|| String::from("none")))
    }

    /// The next good names, if they differ from the last: they are read again after each report and each expiry.
    fn listed(&mut self) -> Answer {
        loop {
            match self.session.peek_children(&self.named)? {
                Some(Kept {
                    answer,
                    mark: Mark::Good,
                }) => {
                    if self.names.as_ref() != Some(&answer.names) {
                        return Ok(self.names.insert(answer.names).join(" "));
                    }
                    self.session.next_event(None)?;
                }
                _ => drop(self.session.call(Request::children(&self.named).watched())),
            }
        }
    }

    fn follow_tree(&mut self, path: &str, most: Option<&str>) -> Result<(), Box<dyn Error>> {
        let tree = match most {
            Some(most) => self.session.bounded_tree(path, most.parse()?),
            None => self.session.tree(path),
        };
        self.told = None;
        self.tree = Some(Box::leak(Box::new(tree?)).snapshots()); // for as long as the program lives
        Ok(())
    }

    /// The next news of the tree, if they differ from the last.
    fn subtree(&mut self) -> Answer {
        let snapshots = self.tree.as_mut().ok_or("there is no tree")?;
        let mut said = snapshots.map(|news| match news {
            Ok(snapshot) => shown_tree(&snapshot),
            Err(trouble) => trouble.to_string(),
        });
        let told = self.told.take();
        self.told = said.find(|said| Some(said) != told.as_ref());
        Ok(self.told.clone().ok_or("the session is over")?)
    }

    fn lock(&mut self, path: &str) -> Answer {
        let lock = Lock::acquire(self.session, path, Sharing::Exclusive, b"")?;
        let is_greater = self.token > 0 && lock.token() > self.token;
        self.token = lock.token();
        self.lock = Some(lock);
        let greater = if is_greater {
            " with a greater token"
        } else {
            ""
        };
        Ok(format!("held{greater}"))
    }

    fn check(&self) -> Answer {
        let lock = self.lock.as_ref().ok_or("there is no lock")?;
        let held = if lock.is_held() { "held" } else { "lost" };
        Ok(format!("is {held}"))
    }

    fn release(&mut self) -> Answer {
        self.lock.take().ok_or("there is no lock")?.release()?;
        Ok(String::from("done"))
    }

    fn commit(&self, mut words: &[&str]) -> Answer {
        let (mut transaction, mut paths) = (self.session.transaction(), Vec::new());
        loop {
            (transaction, words) = match words {
                ["check", path, version, rest @ ..] => {
                    (transaction.check(path, version.parse()?), rest)
                }
                ["delete", path, rest @ ..] => {
                    paths.push(*path);
                    (transaction.delete(path, -1), rest)
                }
                ["set", path, data, rest @ ..] => {
                    paths.push(*path);
                    (transaction.set(path, data_of(data), -1), rest)
                }
                ["create", path, data, rest @ ..] => {
                    paths.push(*path);
                    let created = transaction.create(path, data_of(data), Mode::Persistent);
                    (created, rest)
                }
                _ => break,
            };
        }
        transaction.commit()?;
        Ok(paths.join(" "))
    }

    /// The calls besides those of the core, except transactions.
    fn ask_beside(&self, words: &[&str]) -> Answer {
        Ok(match words {
            ["sync", path] => {
                self.session.sync(path)?;
                String::from("done")
            }
            ["auth", scheme, secret] => {
                self.session.add_auth(scheme, secret.as_bytes())?;
                String::from("done")
            }
            ["acls", path] => {
                let (acls, stat) = self.session.acls(path)?;
                let lines: Vec<String> = acls.iter().map(shown_acl).collect();
                format!("{} version {}", lines.join(" "), stat.aversion)
            }
            ["set_acls", path, version, words @ ..] => {
                let (acls, version) = (acls_of(words)?, version.parse()?);
                let stat = self.session.set_acls(path, &acls, version)?;
                format!("version {}", stat.aversion)
            }
            ["create_with_acls", path, data, words @ ..] => {
                let (acls, mode) = (acls_of(words)?, Mode::Persistent);
                self.session
                    .create_with_acls(path, data_of(data), mode, &acls)?
            }
            _ => return Err("this is no command".into()),
        })
    }

    /// Does what a line says. Returns `None` for a line without an answer.
    fn obey(&mut self, words: &[&str]) -> Result<Option<String>, Box<dyn Error>> {
        Ok(Some(match words {
            ["follow", path] => {
                self.followed = Some(self.session.follow(path));
                return Ok(None);
            }
            ["next"] => self.next()?,
            ["names", path] => {
                self.named = String::from(*path);
                return Ok(None);
            }
            ["listed"] => self.listed()?,
            ["tree", path] => {
                self.follow_tree(path, None)?;
                return Ok(None);
            }
            ["tree", path, most] => {
                self.follow_tree(path, Some(most))?;
                return Ok(None);
            }
            ["subtree"] => self.subtree()?,
            ["lock", path] => self.lock(path)?,
            ["check"] => self.check()?,
            ["release"] => self.release()?,
            ["transaction", words @ ..] => self.commit(words)?,
            ["sync" | "auth" | "acls" | "set_acls" | "create_with_acls", ..] => {
                self.ask_beside(words)?
            }
            ["set", path, data, version] => {
                let set = self.session.set(path, data_of(data), version.parse()?);
                format!("version {}", set?.version)
            }
            [name, path] => self.read(name, path)?,
            [name, path, word] => self.write(name, path, word)?,
            _ => return Err("this is no command".into()),
        }))
    }
}

fn main() -> Result<(), Box<dyn Error>> {
    let mut words = env::args().skip(1);
    let hosts = words.next().unwrap_or_default();
    let tries = words.next().unwrap_or_default().parse()?;
    let mut options = SessionOptions::new(Duration::from_secs(10)).renews(true);
    if let Some(file) = words.next() {
        options = options.record(file).observe(|seen| {
            if let Observation::RecordEnded { why } = seen {
                eprintln!("the record ends: {why}");
            }
        });
    }
    let session = options.retry(Retry::times(tries)).open(&hosts)?;
    let mut told = Told {
        session: &session,
        followed: None,
        named: String::new(),
        names: None,
        tree: None,
        told: None,
        lock: None,
        token: 0,
    };
    for line in io::stdin().lines() {
        let line = line?;
        let words: Vec<&str> = line.split(' ').collect();
        if words == ["close"] {
            break;
        }
        match told.obey(&words) {
            Ok(Some(printed)) => println!("{printed}"),
            Ok(None) => {}
            Err(error) => println!("{error}"),
        }
    }
    drop(told);
    session.close()?;
    println!("closed");
    Ok(())
}
