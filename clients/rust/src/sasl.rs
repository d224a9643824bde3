//! SASL: a session authenticates by challenges and tokens, on each connection before any other request. Meanwhile the server's answer about
//! the session is held back, so that to the machine the server was slow to accept.

use crate::connection::{Connection, Dial, Incoming, Outgoing, Server};
use crate::jute::{Reader, Writer};
use std::error::Error;
use std::fmt;
use std::io;
use std::sync::atomic::{AtomicBool, Ordering};
use std::sync::{Arc, Mutex, PoisonError};
use std::thread;
use std::time::{Duration, Instant};

/// The type of a log-in request, and the xid before the first one: sessions use none below -8.
const OPERATION: i32 = 102;
const BEFORE_FIRST_XID: i32 = -1000;
/// The codes with which a server refuses a client's identity: authentication has failed, and SASL is required.
const REFUSALS: [i32; 2] = [-115, -124];
/// How long a token may wait to be written, in all and at a time.
const WRITE_LIMIT: Duration = Duration::from_secs(10);
const WRITE_WAIT: Duration = Duration::from_millis(100);
const HELD_WAIT: Duration = Duration::from_millis(10);

/// The log-in of one connection. A closure of this signature is one.
///
/// ```
/// use dirwolleu::LogIn;
///
/// /// The mechanism PLAIN: one token, and nothing to be said to the answer.
/// fn plain(challenge: Option<&[u8]>) -> Result<Option<Vec<u8>>, Box<dyn std::error::Error + Send + Sync>> {
///     Ok(challenge.is_none().then(|| b"\0app\0secret".to_vec()))
/// }
/// assert_eq!(LogIn::step(&mut plain, None).unwrap(), Some(b"\0app\0secret".to_vec()));
/// ```
pub trait LogIn: Send {
    /// Returns the token to send, or `None` if the log-in is over. The first step has no challenge; each later one has the server's.
    ///
    /// # Errors
    ///
    /// Any: the session is over, as with credentials that a server refuses.
    fn step(
        &mut self,
        challenge: Option<&[u8]>,
    ) -> Result<Option<Vec<u8>>, Box<dyn Error + Send + Sync>>;
}

impl<F> LogIn for F
where
    F: FnMut(Option<&[u8]>) -> Result<Option<Vec<u8>>, Box<dyn Error + Send + Sync>> + Send,
{
    fn step(
        &mut self,
        challenge: Option<&[u8]>,
    ) -> Result<Option<Vec<u8>>, Box<dyn Error + Send + Sync>> {
        self(challenge)
    }
}

/// Why a log-in has failed, in words. A refusal ends the session; anything else ends the connection.
#[derive(Debug)]
pub(crate) struct LogInFault {
    pub(crate) is_refusal: bool,
    why: String,
}

impl fmt::Display for LogInFault {
    fn fmt(&self, f: &mut fmt::Formatter<'_>) -> fmt::Result {
        write!(f, "the log-in by SASL has failed: {}", self.why)
    }
}

impl Error for LogInFault {}

impl LogInFault {
    /// The fault of a log-in that the server answers with this code.
    fn answered(code: i32) -> LogInFault {
        LogInFault {
            is_refusal: REFUSALS.contains(&code),
            why: format!("the server answers {code}"),
        }
    }

    /// The fault of the log-in, if it made a read fail.
    pub(crate) fn of(fault: &io::Error) -> Option<&LogInFault> {
        fault.get_ref()?.downcast_ref()
    }
}

impl From<LogInFault> for io::Error {
    fn from(fault: LogInFault) -> io::Error {
        io::Error::new(io::ErrorKind::PermissionDenied, fault)
    }
}

/// Makes a log-in for each connection.
pub(crate) type Begin = Box<dyn FnMut() -> Box<dyn LogIn> + Send>;

/// Dials, and logs in on each connection.
pub(crate) struct LoggingIn {
    pub(crate) dial: Box<dyn Dial>,
    pub(crate) begin: Begin,
    pub(crate) longest: usize,
}

impl Dial for LoggingIn {
    fn dial(&mut self, server: &Server<'_>, within: Duration) -> io::Result<Connection> {
        let Connection { incoming, outgoing } = self.dial.dial(server, within)?;
        let half = Arc::new(Half {
            outgoing: Mutex::new(outgoing),
            is_over: AtomicBool::new(false),
        });
        Ok(Connection {
            incoming: Box::new(Guarded {
                incoming,
                half: Arc::clone(&half),
                login: Some(Login::new((self.begin)(), self.longest)),
                passed: Vec::new(),
            }),
            outgoing: Box::new(Held { half, left: None }),
        })
    }
}

/// The write half of a connection, for the session and for the log-in.
struct Half {
    outgoing: Mutex<Box<dyn Outgoing>>,
    is_over: AtomicBool,
}

impl Half {
    fn write(&self, bytes: &[u8], wait: Duration) -> io::Result<usize> {
        let mut outgoing = self.outgoing.lock().unwrap_or_else(PoisonError::into_inner);
        outgoing.write(bytes, wait)
    }

    /// Writes all bytes that the log-in sends.
    fn write_all(&self, bytes: &[u8]) -> io::Result<()> {
        let until = Instant::now() + WRITE_LIMIT;
        let mut written = 0;
        while written < bytes.len() {
            match self.write(&bytes[written..], WRITE_WAIT) {
                Ok(0) => return Err(io::ErrorKind::WriteZero.into()),
                Ok(count) => written += count,
                Err(fault) if crate::connection::is_late(&fault) && Instant::now() < until => {}
                Err(fault) => return Err(fault),
            }
        }
        Ok(())
    }
}

/// The session's write half: it passes the first frame, and the others once the log-in is over.
struct Held {
    half: Arc<Half>,
    left: Option<usize>,
}

impl Outgoing for Held {
    fn write(&mut self, bytes: &[u8], wait: Duration) -> io::Result<usize> {
        if self.half.is_over.load(Ordering::Acquire) {
            return self.half.write(bytes, wait);
        }
        let copy_whole = bytes.get(..4).and_then(|length| length.try_into().ok());
        let frame = copy_whole.map_or(bytes.len(), |length| {
            4 + u32::from_be_bytes(length) as usize
        });
        let left = *self.left.get_or_insert(frame);
        if left == 0 {
            thread::sleep(wait.min(HELD_WAIT));
            return Err(io::ErrorKind::WouldBlock.into());
        }
        let count = self.half.write(&bytes[..left.min(bytes.len())], wait)?;
        self.left = Some(left - count);
        Ok(count)
    }

    fn close(&mut self) {
        let mut outgoing = self
            .half
            .outgoing
            .lock()
            .unwrap_or_else(PoisonError::into_inner);
        outgoing.close();
    }
}

/// The session's read half: it holds everything back until the log-in is over.
struct Guarded {
    incoming: Box<dyn Incoming>,
    half: Arc<Half>,
    login: Option<Login>,
    passed: Vec<u8>,
}

impl Incoming for Guarded {
    fn read(&mut self, room: &mut [u8], wait: Duration) -> io::Result<usize> {
        if let Some(login) = &mut self.login {
            let count = self.incoming.read(room, wait)?;
            if count == 0 {
                return Ok(0);
            }
            let is_over = login.take(&room[..count])?;
            self.half.write_all(&std::mem::take(&mut login.frames))?;
            if !is_over {
                return Err(io::ErrorKind::WouldBlock.into());
            }
            self.passed = self.login.take().map_or_else(Vec::new, Login::into_passed);
            self.half.is_over.store(true, Ordering::Release);
        }
        if self.passed.is_empty() {
            return self.incoming.read(room, wait);
        }
        let count = room.len().min(self.passed.len());
        room[..count].copy_from_slice(&self.passed[..count]);
        self.passed.drain(..count);
        Ok(count)
    }
}

/// The log-in of one connection, from its first bytes on.
struct Login {
    log_in: Box<dyn LogIn>,
    came: Vec<u8>,
    kept: Vec<u8>,
    frames: Vec<u8>,
    xid: i32,
    longest: usize,
}

impl Login {
    fn new(log_in: Box<dyn LogIn>, longest: usize) -> Login {
        Login {
            log_in,
            came: Vec::new(),
            kept: Vec::new(),
            frames: Vec::new(),
            xid: BEFORE_FIRST_XID,
            longest,
        }
    }

    /// Takes bytes from the server. Returns whether the log-in is over; `frames` is to be written. The machine judges what does not parse.
    fn take(&mut self, bytes: &[u8]) -> Result<bool, LogInFault> {
        self.came.extend(bytes);
        while let Some(length) = self.came.get(..4).and_then(|four| four.try_into().ok()) {
            let length = u32::from_be_bytes(length) as usize;
            if length > self.longest {
                return Ok(true);
            }
            if self.came.len() < 4 + length {
                break;
            }
            let rest = self.came.split_off(4 + length);
            let frame = std::mem::replace(&mut self.came, rest);
            if self.take_frame(frame)? {
                return Ok(true);
            }
        }
        Ok(false)
    }

    fn take_frame(&mut self, frame: Vec<u8>) -> Result<bool, LogInFault> {
        let mut fields = Reader::new(&frame[4..]);
        let first = fields.int(); // the version of the protocol, or an xid
        if !self.kept.is_empty() {
            return match first {
                Some(xid) if xid == self.xid => self.take_token(frame),
                _ => {
                    self.kept.extend(frame);
                    Ok(false)
                }
            };
        }
        let is_accepted = fields.int().is_some_and(|timeout| timeout > 0);
        self.kept = frame;
        if is_accepted {
            self.step(None)
        } else {
            Ok(true)
        }
    }

    /// Takes the server's answer to a token.
    fn take_token(&mut self, frame: Vec<u8>) -> Result<bool, LogInFault> {
        let mut fields = Reader::new(&frame[4..]);
        let head = (fields.int(), fields.long(), fields.int());
        let challenge = match (head.2, fields.int()) {
            (Some(0), Some(-1)) => Some(Vec::new()), // a null buffer
            (Some(0), Some(length)) => usize::try_from(length)
                .ok()
                .and_then(|length| fields.bytes(length)),
            (Some(code), _) if code != 0 => return Err(LogInFault::answered(code)),
            _ => None,
        };
        if let Some(challenge) = challenge {
            return self.step(Some(&challenge));
        }
        self.kept.extend(frame);
        Ok(true)
    }

    fn step(&mut self, challenge: Option<&[u8]>) -> Result<bool, LogInFault> {
        let step = self.log_in.step(challenge);
        let step = step.map_err(|why| LogInFault {
            is_refusal: true,
            why: why.to_string(),
        });
        let Some(token) = step? else {
            return Ok(true);
        };
        self.xid -= 1;
        let mut body = Writer::default();
        body.int(self.xid).int(OPERATION).buffer(&token);
        let mut frame = Writer::default();
        frame.buffer(&body.into_bytes());
        self.frames.extend(frame.into_bytes());
        Ok(false)
    }

    fn into_passed(mut self) -> Vec<u8> {
        self.kept.append(&mut self.came);
        self.kept
    }
}
