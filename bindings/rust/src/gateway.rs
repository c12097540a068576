//! The gateway of a cluster.

use crate::code::errors;
use crate::packet::carries;
use crate::raw::*;

errors! {
    /// Why a gateway refuses a call; of refused bytes also by which fault.
    GatewayError by sblog_gateway_code_text: Memory = 15, Payload = 18, Bytes(u32) = 21, Early = 22, Range = 23
}

/// An output of a process: its number among the outputs of that process, and its bytes.
#[allow(missing_docs)]
#[derive(Clone, Debug, PartialEq, Eq)]
pub struct Output {
    pub process: u8,
    pub ssn: u64,
    pub payload: Vec<u8>,
}

type Done<T> = Result<T, GatewayError>;

/// The way into a cluster and out of it, node 0. What its calls put out may be sent once their changes are durable.
///
/// ```no_run
/// let mut gateway = sblog::Gateway::open(2, 60_000, 8)?;
/// let store = gateway.store()?; // to be kept, and after it all changes
/// gateway.input(1, b"hello")?;
/// let changes = gateway.changes()?; // to be durable before this packet is sent
/// let packet = gateway.take()?.unwrap();
/// // after a kill
/// let mut again = sblog::Gateway::revive(&store, 60_000, 8)?;
/// again.apply(&changes)?;
/// again.tick()?;
/// assert_eq!(again.take()?, Some(packet));
/// # Ok::<(), sblog::GatewayError>(())
/// ```
#[derive(Debug)]
pub struct Gateway(Held);

impl Gateway {
    /// Opens the gateway of a new cluster of `n` processes, 1 to 15. A packet has at most `page` bytes, 512 to 65,535 (60,000
    /// unless there is a reason), and a tick sends at most `tick` messages again to a process (8).
    pub fn open(n: u8, page: u32, tick: u32) -> Done<Gateway> {
        let open = |it, _: &mut u32| unsafe { sblog_gateway_open(n, page, tick, it) };
        Ok(Gateway(Held::opened(sblog_gateway_close, open)?))
    }

    /// Opens one that comes back with a store.
    pub fn revive(store: &[u8], page: u32, tick: u32) -> Done<Gateway> {
        let open = |it, fault: &mut u32| unsafe { sblog_gateway_revive(store.as_ptr(), store.len(), page, tick, it, fault) };
        Ok(Gateway(Held::opened(sblog_gateway_close, open)?))
    }

    /// Brings the store up to date by the changes that were kept after it, before any other call.
    pub fn apply(&mut self, changes: &[u8]) -> Done<()> {
        self.0.told(|it, fault| unsafe { sblog_gateway_apply(it, changes.as_ptr(), changes.len(), fault) })?;
        Ok(())
    }

    /// Logs a message of 0 to 256 bytes for a process, and answers its number among those.
    pub fn input(&mut self, process: u8, payload: &[u8]) -> Done<u64> {
        let mut ssn = 0;
        done(unsafe { sblog_gateway_input(self.0.at(), process, payload.as_ptr(), payload.len(), &mut ssn) })?;
        Ok(ssn)
    }

    /// The next output, if there is one.
    pub fn output(&mut self) -> Done<Option<Output>> {
        let (mut process, mut ssn) = (0, 0);
        let output = |it, out, room, size: &mut usize| unsafe { sblog_gateway_output(it, &mut process, &mut ssn, out, room, size) };
        let payload = some(self.0.bytes(output))?;
        Ok(payload.map(|payload| Output { process, ssn, payload }))
    }

    /// The bytes of the store.
    pub fn store(&self) -> Done<Vec<u8>> {
        Ok(self.0.bytes(|it, out, room, size| unsafe { sblog_gateway_store(it, out, room, size) })?)
    }

    /// What happened to the store since this was asked; no bytes if nothing did.
    pub fn changes(&mut self) -> Done<Vec<u8>> {
        Ok(self.0.bytes(|it, out, room, size| unsafe { sblog_gateway_changes(it, out, room, size) })?)
    }
}

carries!(Gateway: sblog_gateway_receive, sblog_gateway_receive_all, sblog_gateway_take, sblog_gateway_take_all, sblog_gateway_tick);
