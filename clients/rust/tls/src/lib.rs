//! TLS by [rustls] for sessions of [dirwolleu], with everything of dirwolleu, so that a program with this crate under that name needs no
//! other line: `dirwolleu = { package = "dirwolleu-rustls", path = ".." }`.
//!
//! ```no_run
//! use dirwolleu_rustls::{rustls, SessionOptions, Tls};
//! use std::{fs, sync::Arc, time::Duration};
//!
//! # fn main() -> Result<(), Box<dyn std::error::Error>> {
//! let mut roots = rustls::RootCertStore::empty();
//! roots.add(&rustls::Certificate(fs::read("ca.der")?))?;
//! let config = rustls::ClientConfig::builder()
//!     .with_safe_defaults()
//!     .with_root_certificates(roots)
//!     .with_no_client_auth();
//! let options = SessionOptions::new(Duration::from_secs(10)).dial(Tls::new(Arc::new(config)));
//! let session = options.open("zk1.example.org:2281,zk2.example.org:2281")?;
//! # Ok(())
//! # }
//! ```
//!
//! The server's certificate has to have the name of each host, as the session's list has it. This version of rustls verifies names, and no
//! addresses.
#![deny(missing_docs, unsafe_code)]
#![warn(clippy::pedantic)]

mod dial;

pub use dial::Tls;
pub use dirwolleu::*;
pub use rustls;
