//! Message handlers that are checked once, sessions of them that survive crashes, and the nodes and the gateway of a cluster.
//!
//! **This crate is outside the proofs.** It is plain Rust, tested, over the C library `sblog`, whose functions are proved to do
//! what their contracts say. Here their pointers, lengths and handles become types: nothing is left to a caller's word.
//!
//! | Type | Is |
//! |---|---|
//! | [`Image`] | the image of a handler, and calls of it |
//! | [`Session`] | processes that run handlers, exchange messages and survive crashes, in the memory of this program |
//! | [`Node`] | one process of a cluster, whose host carries its packets and keeps its checkpoints |
//! | [`Gateway`] | the way into a cluster and out of it |
//!
//! Each is closed when it is dropped, so nothing can be called after that. Each stays on the thread that opened it, as the
//! library asks, and none is `Send`:
//!
//! ```compile_fail,E0277
//! fn is_sent(_: impl Send) {}
//! is_sent(sblog::Gateway::open(1, 60_000, 8).unwrap());
//! ```
//!
//! A refused call changes nothing, unless its page here says so. If memory runs out in the library, a call is refused; if it
//! runs out in this crate, the program ends, as everywhere in Rust. A session of the example's adder:
//!
//! ```no_run
//! let adder = std::fs::read("examples/adder.sbi")?;
//! let mut session = sblog::Session::open(&[adder])?;
//! session.input(1, 1, &5u64.to_le_bytes())?;
//! session.drive(1000)?;
//! session.crash(1)?;
//! session.recover(1)?;
//! session.drive(1000)?;
//! assert_eq!(session.state(1)?, 5u64.to_le_bytes());
//! # Ok::<(), Box<dyn std::error::Error>>(())
//! ```
#![warn(missing_docs)]
#![deny(dead_code)] // each function of the library has a method

mod code;
mod gateway;
mod image;
mod journal;
mod node;
mod packet;
mod raw;
mod session;

pub use code::version;
pub use gateway::{Gateway, GatewayError, Output};
pub use image::{Fault, Image, ImageError, Report, Who};
pub use journal::{Answer, Call, Entry};
pub use node::{Job, Limits, Node, NodeError, Stage, Standing};
pub use packet::{Bundle, Label, Packet, PacketKind, Tally, packet_label};
pub use session::{Drive, Phase, Session, SessionError, Shown};
