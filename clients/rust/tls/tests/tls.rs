//! Sessions over TLS, at a server of the test's own, in a program that uses the crate under the name of the client. Without openssl, which
//! makes certificates, each test says so and passes.

#[path = "../../tests/jute/mod.rs"]
mod jute;
#[path = "../../tests/partner/mod.rs"]
mod partner;

extern crate dirwolleu_rustls as dirwolleu;

use dirwolleu::{rustls, Request, Session, SessionOptions, State, Tls};
use partner::Line;
use rustls::{
    Certificate, ClientConfig, PrivateKey, RootCertStore, ServerConfig, ServerConnection,
    StreamOwned,
};
use std::io::Write;
use std::iter::repeat;
use std::net::{SocketAddr, TcpListener, TcpStream};
use std::path::{Path, PathBuf};
use std::process::Command;
use std::sync::Arc;
use std::thread::{self, sleep};
use std::time::{Duration, Instant};
use std::{env, fs, process};

const TIMEOUT: Duration = Duration::from_secs(10);

/// How long a test waits for something.
const PATIENCE: Duration = Duration::from_secs(30);

/// How long a server that does not read may hold a program up. Its writes otherwise wait for a third of the timeout.
const AT_ONCE: Duration = Duration::from_secs(20);

/// A folder that goes with its test.
struct Folder(PathBuf);

impl Drop for Folder {
    fn drop(&mut self) {
        let _ = fs::remove_dir_all(&self.0);
    }
}

/// Runs openssl with these words in a folder. Returns whether there is an openssl.
fn openssl(folder: &Path, words: &str) -> bool {
    let command = Command::new("openssl")
        .args(words.split(' '))
        .current_dir(folder)
        .output();
    let Ok(output) = command else {
        println!("skipped: there is no openssl");
        return false;
    };
    assert!(
        output.status.success(),
        "{}",
        String::from_utf8_lossy(&output.stderr)
    );
    true
}

/// The configurations of a server and its clients, which know each other.
struct Trust {
    server: Arc<ServerConfig>,
    client: Arc<ClientConfig>,
}

/// A server whose certificate has this name, and clients that trust its signer.
fn trust(test: &str, name: &str) -> Option<Trust> {
    let folder = Folder(env::temp_dir().join(format!("dirwolleu-{}-{test}", process::id())));
    fs::create_dir_all(&folder.0).unwrap();
    fs::write(
        folder.0.join("names"),
        format!("basicConstraints=CA:FALSE\nsubjectAltName=DNS:{name}\n"),
    )
    .unwrap();
    let lines = [
        "req -x509 -newkey rsa:2048 -nodes -keyout ca.key -out ca.pem -days 2 -subj /CN=authority",
        "req -newkey rsa:2048 -nodes -keyout key.pem -out request.pem -subj /CN=server",
        "x509 -req -in request.pem -CA ca.pem -CAkey ca.key -CAcreateserial -out server.pem -days 2 -extfile names",
        "x509 -in ca.pem -outform DER -out ca.der",
        "x509 -in server.pem -outform DER -out server.der",
        "pkcs8 -topk8 -nocrypt -in key.pem -outform DER -out key.der",
    ];
    if !lines.iter().all(|words| openssl(&folder.0, words)) {
        return None;
    }
    let read = |file: &str| fs::read(folder.0.join(file)).unwrap();
    let mut roots = RootCertStore::empty();
    roots.add(&Certificate(read("ca.der"))).unwrap();
    let client = ClientConfig::builder()
        .with_safe_defaults()
        .with_root_certificates(roots);
    let server = ServerConfig::builder()
        .with_safe_defaults()
        .with_no_client_auth();
    let chain = vec![Certificate(read("server.der"))];
    Some(Trust {
        server: Arc::new(
            server
                .with_single_cert(chain, PrivateKey(read("key.der")))
                .unwrap(),
        ),
        client: Arc::new(client.with_no_client_auth()),
    })
}

/// A server that serves each connection over TLS, in turn, from number 0 on.
fn start(config: Arc<ServerConfig>, serve: impl Fn(usize, Line) + Send + 'static) -> SocketAddr {
    let listener = TcpListener::bind("127.0.0.1:0").unwrap();
    let address = listener.local_addr().unwrap();
    thread::spawn(move || {
        for (number, stream) in listener.incoming().map_while(Result::ok).enumerate() {
            serve(number, Line::over(secured(&config, stream)));
        }
    });
    address
}

fn secured(
    config: &Arc<ServerConfig>,
    stream: TcpStream,
) -> StreamOwned<ServerConnection, TcpStream> {
    stream.set_nodelay(true).unwrap();
    StreamOwned::new(ServerConnection::new(Arc::clone(config)).unwrap(), stream)
}

fn open(trust: &Trust, address: SocketAddr, timeout: Duration) -> Session {
    let options = SessionOptions::new(timeout).dial(Tls::new(Arc::clone(&trust.client)));
    options
        .open(format!("localhost:{}", address.port()))
        .unwrap()
}

#[test]
fn a_session_lives_over_tls() {
    let Some(trust) = trust("lives", "localhost") else {
        return;
    };
    let address = start(Arc::clone(&trust.server), |number, mut line| {
        if line.admit(1_500) && number > 0 {
            line.serve();
        } else if line.request().is_some() {
            line.tell_data(1); // and the connection is over
        }
    });
    let session = open(&trust, address, Duration::from_millis(1_500));
    assert!(session.get("/a").is_ok());
    let until = Instant::now() + PATIENCE;
    while session.get("/a").is_err() {
        assert!(Instant::now() < until, "it connects again");
    }
    sleep(Duration::from_secs(3));
    assert_eq!(session.state(), Some(State::Connected), "it pings");
}

#[test]
fn large_data_and_many_calls_come_through() {
    let Some(trust) = trust("large", "localhost") else {
        return;
    };
    let address = start(Arc::clone(&trust.server), |_, mut line| {
        line.admit(10_000);
        line.serve();
    });
    let session = open(&trust, address, TIMEOUT);
    let large = vec![7; 500_000];
    let tickets: Vec<_> = (0..20)
        .map(|_| {
            (
                session.ask(Request::get("/a")),
                session.ask(Request::set("/a", &large, 0)),
            )
        })
        .collect();
    for (get, set) in tickets {
        assert!(get.wait_for(PATIENCE).is_ok());
        assert!(set.wait_for(PATIENCE).is_ok());
    }
}

#[test]
fn a_server_of_another_name_is_not_talked_to() {
    let Some(trust) = trust("name", "elsewhere.example.org") else {
        return;
    };
    let address = start(Arc::clone(&trust.server), |_, mut line| {
        assert!(line.frame().is_none(), "nothing is said to it");
    });
    let options = SessionOptions::new(TIMEOUT).dial(Tls::new(Arc::clone(&trust.client)));
    let options = options.opens_within(Duration::from_secs(2));
    let nobody = options.open(format!("localhost:{}", address.port()));
    let told = nobody.unwrap_err().to_string();
    assert!(told.contains("; last: 127.0.0.1:"), "{told}");
    assert!(told.contains("certificate"), "{told}");
}

/// Begins a record of 16 KiB, and sends a byte of it now and then, until the client ends the connection.
fn drip(mut stream: TcpStream) {
    let mut next = [22, 3, 3, 64, 0].into_iter().chain(repeat(0));
    while next
        .next()
        .is_some_and(|byte| stream.write_all(&[byte]).is_ok())
    {
        sleep(Duration::from_millis(200));
    }
}

#[test]
fn a_handshake_that_drips_ends_with_its_attempt() {
    let Some(trust) = trust("drips", "localhost") else {
        return;
    };
    let listener = TcpListener::bind("127.0.0.1:0").unwrap();
    let address = listener.local_addr().unwrap();
    let config = Arc::clone(&trust.server);
    thread::spawn(move || {
        drip(listener.accept().unwrap().0);
        let mut line = Line::over(secured(&config, listener.accept().unwrap().0));
        line.admit(3_000);
        line.serve();
    });
    let session = open(&trust, address, Duration::from_secs(3));
    assert!(session.call(Request::get("/a").within(PATIENCE)).is_ok());
}

/// With frames that are written in many pieces, and with those in one.
#[test]
fn a_server_that_reads_nothing_holds_nobody_up() {
    let Some(trust) = trust("slow", "localhost") else {
        return;
    };
    let address = start(Arc::clone(&trust.server), |_, mut line| {
        line.admit(90_000);
        thread::spawn(move || {
            sleep(Duration::from_secs(3_600));
            drop(line);
        });
    });
    for (size, count) in [(1_000_000, 40), (60_000, 600)] {
        let session = open(&trust, address, Duration::from_secs(90));
        session.next_event(None).unwrap();
        let data = vec![7; size];
        let begun = Instant::now();
        for _ in 0..count {
            drop(session.ask(Request::set("/a", &data, -1)));
            assert!(session.state().is_some());
            assert!(begun.elapsed() < AT_ONCE, "{size}: {:?}", begun.elapsed());
        }
    }
}
