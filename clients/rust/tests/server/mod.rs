//! The server in memory at a socket, `clients/bench/server.py` with the moves of `hostile.py`, in a process of its own.

use std::io::{BufRead, BufReader, ErrorKind, Write};
use std::net::{Shutdown, SocketAddr, TcpStream};
use std::process::{Child, Command, Stdio};
use std::sync::mpsc::{channel, Receiver};
use std::sync::OnceLock;
use std::thread;
use std::time::Duration;

const MAKER: &str = concat!(env!("CARGO_MANIFEST_DIR"), "/../bench/maker.py");

/// How long a line of the server may take.
const PATIENCE: Duration = Duration::from_secs(120);

/// Makes the servers of this program, and ends with it.
struct Maker {
    _child: Child,
    address: SocketAddr,
}

/// `None` without python3.
fn begin_making() -> Option<Maker> {
    let mut command = Command::new("python3");
    command.arg(MAKER);
    command.stdin(Stdio::piped()).stdout(Stdio::piped());
    let mut child = match command.spawn() {
        Err(fault) if fault.kind() == ErrorKind::NotFound => return None,
        child => child.expect("python3 starts"),
    };
    let mut line = String::new();
    let mut output = BufReader::new(child.stdout.take().expect("it is piped"));
    output.read_line(&mut line).expect("it says its port");
    let address = address_in(line.trim_end(), "making ");
    Some(Maker {
        _child: child,
        address,
    })
}

/// The address of the port that follows this word in a line.
fn address_in(line: &str, word: &str) -> SocketAddr {
    let port = line.strip_prefix(word).expect("it listens");
    ([127, 0, 0, 1], port.parse().expect("a port")).into()
}

/// The server. Dropping it ends it.
pub struct Server {
    stream: TcpStream,
    lines: Receiver<String>,
    /// The address at which it listens.
    pub address: SocketAddr,
}

impl Server {
    /// A server with these words. Without python3 it says so and returns `None`.
    pub fn start(words: &[&str]) -> Option<Server> {
        static MAKER: OnceLock<Option<Maker>> = OnceLock::new();
        let Some(maker) = MAKER.get_or_init(begin_making) else {
            println!("skipped: there is no python3");
            return None;
        };
        let mut stream = TcpStream::connect(maker.address).expect("it makes servers");
        writeln!(stream, "{words:?}").expect("it makes servers"); // plain words are the same in JSON
        let input = BufReader::new(stream.try_clone().expect("it is open"));
        let (sender, lines) = channel();
        thread::spawn(move || {
            for line in input.lines().map_while(Result::ok) {
                let _ = sender.send(line);
            }
        });
        let line: String = lines.recv_timeout(PATIENCE).expect("a server is made");
        let address = address_in(&line, "listening ");
        Some(Server {
            stream,
            lines,
            address,
        })
    }

    /// Makes it obey a command.
    pub fn tell(&mut self, command: &str) {
        writeln!(self.stream, "{command}").expect("it listens to commands");
        let line = self.lines.recv_timeout(PATIENCE).expect("a line comes");
        assert_eq!(line, "done", "{command}");
    }
}

impl Drop for Server {
    fn drop(&mut self) {
        let _ = self.stream.shutdown(Shutdown::Write);
        while self.lines.recv_timeout(PATIENCE).is_ok() {}
    }
}
