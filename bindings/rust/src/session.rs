//! A session.

use crate::code::{errors, numbers};
use crate::journal::Entry;
use crate::raw::*;

errors! {
    /// Why a session refuses a call.
    SessionError by sblog_session_code_text:
    NoProcess = 1, NotUp = 2, OpenJob = 3, NoPacket = 4, SameProcess = 5, NotReleased = 6, NotLogged = 7, PeerNotUp = 8, StaleJob = 9,
    NotDown = 10, WrongPhase = 11, Full = 12, WireFull = 13, FeedTaken = 14, Memory = 15, File = 17, Payload = 18
}

numbers! {
    /// What a process of a session does.
    Phase: Up = 0, Busy = 1, Down = 2, Replaying = 3, Resync = 4
}

/// What came of a drive: how many calls were accepted, and whether the journal's end stopped it.
#[allow(missing_docs)]
#[derive(Clone, Copy, Debug, PartialEq, Eq)]
pub struct Drive {
    pub accepted: u32,
    pub is_stopped: bool,
}

/// An output that was shown: the process that gave it, its number among the outputs of that process, and its bytes.
#[allow(missing_docs)]
#[derive(Clone, Debug, PartialEq, Eq)]
pub struct Shown {
    pub sender: u8,
    pub ssn: u32,
    pub payload: Vec<u8>,
}

type Done<T> = Result<T, SessionError>;

/// Processes, numbered from 1, that run handlers, exchange messages and survive crashes, all in the memory of this program.
///
/// ```no_run
/// let files = [std::fs::read("examples/relay.sbi")?, std::fs::read("examples/echo.sbi")?];
/// let mut session = sblog::Session::open(&files)?;
/// session.input(1, 1, b"hello")?;
/// session.drive(1000)?;
/// assert_eq!(session.shown(0)?.unwrap().sender, 2);
/// assert_eq!(session.input(3, 2, b"hello"), Err(sblog::SessionError::NoProcess));
/// # Ok::<(), Box<dyn std::error::Error>>(())
/// ```
#[derive(Debug)]
pub struct Session(Held);

impl Session {
    /// Opens a session of 1 to 15 processes by their image files, of any forms.
    pub fn open<F: AsRef<[u8]>>(files: &[F]) -> Done<Session> {
        let lengths: Result<Vec<u32>, _> = files.iter().map(|it| it.as_ref().len().try_into()).collect();
        let lengths = lengths.map_err(|_| SessionError::File)?;
        let bytes: Vec<u8> = files.iter().flat_map(|it| it.as_ref()).copied().collect();
        let (at, len) = (lengths.as_ptr(), lengths.len());
        let open = |it, _: &mut u32| unsafe { sblog_session_open(bytes.as_ptr(), bytes.len(), at, len, it) };
        Ok(Session(Held::opened(sblog_session_close, open)?))
    }

    /// Hands 0 to 256 bytes in for a process, under a feed number that is taken once, and answers the message's number.
    pub fn input(&mut self, to: u8, feed: u32, payload: &[u8]) -> Done<u32> {
        Ok(self.0.told(|it, ssn| unsafe { sblog_session_input(it, to, feed, payload.as_ptr(), payload.len(), ssn) })?)
    }

    /// Makes useful calls until there is none, so many were accepted, or the journal has no place. One that runs out of memory
    /// keeps the calls that were accepted before.
    pub fn drive(&mut self, budget: u32) -> Done<Drive> {
        let mut accepted = 0;
        let code = unsafe { sblog_session_drive(self.0.at(), budget, &mut accepted) };
        if code != 12 {
            done(code)?;
        }
        Ok(Drive { accepted, is_stopped: code == 12 })
    }

    /// Puts a message on the wire, from and to 0 of the outside, and answers the packet's key.
    pub fn transmit(&mut self, from: u8, to: u8, ssn: u32) -> Done<u32> {
        Ok(self.0.told(|it, packet| unsafe { sblog_session_transmit(it, from, to, ssn, packet) })?)
    }

    /// Puts a packet on the wire a second time, and answers the copy's key.
    pub fn copy(&mut self, packet: u32) -> Done<u32> {
        Ok(self.0.told(|it, copy| unsafe { sblog_session_copy(it, packet, copy) })?)
    }

    /// Takes a packet from the wire.
    pub fn lose(&mut self, packet: u32) -> Done<()> {
        Ok(done(unsafe { sblog_session_lose(self.0.at(), packet) })?)
    }

    /// Has a packet arrive, calls the handler if that starts a job, and answers the last entry. With [`SessionError::Memory`]
    /// the packet may have arrived, and a job be open.
    pub fn arrive(&mut self, packet: u32) -> Done<Entry> {
        let mut entry = Entry::BLANK;
        done(unsafe { sblog_session_arrive(self.0.at(), packet, &mut entry) })?;
        Ok(entry)
    }

    /// Saves a process, and answers how many messages that covers.
    pub fn checkpoint(&mut self, process: u8) -> Done<u32> {
        Ok(self.0.told(|it, covered| unsafe { sblog_session_checkpoint(it, process, covered) })?)
    }

    /// Drops what the checkpoint of a process covers from logs, or of 0 what was shown, and answers how many messages.
    pub fn trim(&mut self, to: u8) -> Done<u32> {
        Ok(self.0.told(|it, dropped| unsafe { sblog_session_trim(it, to, dropped) })?)
    }

    /// Loses all of a process but its checkpoint, and answers its new incarnation.
    pub fn crash(&mut self, process: u8) -> Done<u32> {
        Ok(self.0.told(|it, incarnation| unsafe { sblog_session_crash(it, process, incarnation) })?)
    }

    /// Brings a process back, and answers how many messages it keeps, which the next drive replays.
    pub fn recover(&mut self, process: u8) -> Done<u32> {
        Ok(self.0.told(|it, kept| unsafe { sblog_session_recover(it, process, kept) })?)
    }

    /// The same though others aren't up: failures came not one at a time from then on.
    pub fn recover_alone(&mut self, process: u8) -> Done<u32> {
        Ok(self.0.told(|it, kept| unsafe { sblog_session_recover_alone(it, process, kept) })?)
    }

    /// How many messages the state of a process has, and what it does.
    pub fn standing(&self, process: u8) -> Done<(u32, Phase)> {
        let mut phase = 0;
        let length = self.0.told(|it, length| unsafe { sblog_session_standing(it, process, length, &mut phase) })?;
        Ok((length, Phase::of(phase)))
    }

    /// The state of a process; no bytes while it is down.
    pub fn state(&self, process: u8) -> Done<Vec<u8>> {
        Ok(self.0.bytes(|it, out, room, size| unsafe { sblog_session_state(it, process, out, room, size) })?)
    }

    /// The bytes of the latest checkpoint of a process.
    pub fn saved(&self, process: u8) -> Done<Vec<u8>> {
        Ok(self.0.bytes(|it, out, room, size| unsafe { sblog_session_saved(it, process, out, room, size) })?)
    }

    /// The output that was shown at a place, from 0.
    pub fn shown(&self, place: usize) -> Done<Option<Shown>> {
        let (mut sender, mut ssn) = (0, 0);
        let shown = |it, out, room, size: &mut usize| unsafe { sblog_session_shown(it, place, &mut sender, &mut ssn, out, room, size) };
        let payload = some(self.0.bytes(shown))?;
        Ok(payload.map(|payload| Shown { sender, ssn, payload }))
    }

    /// Whether failures came one at a time.
    pub fn exact(&self) -> Done<bool> {
        Ok(self.0.told(|it, exact| unsafe { sblog_session_exact(it, exact) })? == 1)
    }

    /// How many sends and outputs helpers refused the handler of a process, by the code that it got, 1 to 3.
    pub fn refused(&self, process: u8, code: u32) -> u64 {
        unsafe { sblog_session_refused(self.0.at(), process, code) }
    }

    /// The journal as text.
    pub fn trace(&self) -> Done<String> {
        let text = self.0.bytes(|it, out, room, size| unsafe { sblog_session_trace(it, out, room, size) })?;
        Ok(String::from_utf8(text).expect("a trace is ASCII"))
    }

    /// How many places the journal has left.
    pub fn room(&self) -> Done<usize> {
        let mut places = 0;
        done(unsafe { sblog_session_room(self.0.at(), &mut places) })?;
        Ok(places)
    }

    /// How many entries the journal has.
    pub fn journal(&self) -> Done<usize> {
        let mut count = 0;
        done(unsafe { sblog_session_journal(self.0.at(), &mut count) })?;
        Ok(count)
    }

    /// The entries from a place on, from 0.
    pub fn entries(&self, from: usize) -> Done<Vec<Entry>> {
        let (mut out, mut count) = (vec![Entry::BLANK; self.journal()?.saturating_sub(from)], 0);
        done(unsafe { sblog_session_entries(self.0.at(), from, out.as_mut_ptr(), out.len(), &mut count) })?;
        out.truncate(count);
        Ok(out)
    }
}
