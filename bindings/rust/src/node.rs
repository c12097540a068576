//! A node.

use crate::code::{errors, numbers};
use crate::packet::carries;
use crate::raw::*;

errors! {
    /// Why a node refuses a call; of refused bytes also by which fault.
    NodeError by sblog_node_code_text: Memory = 15, Image = 17, Absent = 20, Bytes(u32) = 21, Unready = 22, Limit = 23, Left = 24
}

numbers! {
    /// What a node does; one that comes back collects, replays and resumes.
    Stage: Up = 0, Busy = 1, Frozen = 2, Collecting = 3, Replaying = 4, Resuming = 5
}

/// The limits that a node keeps until it is closed.
#[derive(Clone, Copy, Debug, PartialEq, Eq)]
pub struct Limits {
    /// Bytes of its largest packet, 512 to 65,535.
    pub page: u32,
    /// How many packets for a peer one tick or one release makes, at least 1.
    pub tick: u32,
    /// With so many numbers that aren't acknowledged it takes no message, 1 to 256.
    pub numbers: u32,
    /// Nor with so many messages after its checkpoint, 1 to 65,536.
    pub receipts: u32,
    /// Whether what it sends waits until a checkpoint that covers it is durable.
    pub is_durable: bool,
}

impl Default for Limits {
    fn default() -> Limits {
        Limits { page: 60_000, tick: 8, numbers: 256, receipts: 65_536, is_durable: true }
    }
}

/// The numbers of a node, and what it does: the fields of `sblog_standing`.
#[allow(missing_docs)]
#[derive(Clone, Copy, Debug, PartialEq, Eq)]
pub struct Standing {
    pub length: u64,
    pub base: u64,
    pub incarnation: u64,
    pub stage: Stage,
    pub is_exact: bool,
    pub receipts: u64,
    pub entries: u64,
    pub packets: u64,
    pub replays: u64,
    pub waited_for: u64,
}

/// The call of the handler that is next, for a host that makes it: the fields of `sblog_job`, and the array of the call.
#[allow(missing_docs)]
#[derive(Clone, Debug, PartialEq, Eq)]
pub struct Job {
    pub incarnation: u64,
    pub received: u64,
    pub message_len: u64,
    pub me: u64,
    pub from: u64,
    pub count: u64,
    pub array: Vec<u8>,
}

type Done<T> = Result<T, NodeError>;

/// One process of a cluster. Its host carries packets, and keeps its checkpoints.
///
/// ```no_run
/// use sblog::{Limits, Node};
/// let counter = std::fs::read("examples/node/counter.sbi")?;
/// let mut node = Node::open(&counter, 1, 1, Limits::default())?;
/// let kept = node.checkpoint()?; // to be durable, and incarnation 1 before it
/// node.saved()?;
/// // after a kill, with incarnation 2 durable
/// let mut again = Node::revive(&counter, &kept, 2, Limits::default())?;
/// while let Some(packet) = again.take()? {
///     println!("{} bytes for {}", packet.bytes.len(), packet.to);
/// }
/// # Ok::<(), Box<dyn std::error::Error>>(())
/// ```
#[derive(Debug)]
pub struct Node(Held);

impl Node {
    /// Opens process `me` of `n`, which received nothing, by the image file of its handler.
    pub fn open(image: &[u8], me: u8, n: u8, limits: Limits) -> Done<Node> {
        let Limits { page, tick, numbers, receipts, is_durable } = limits;
        let (at, len, durable) = (image.as_ptr(), image.len(), is_durable.into());
        let open = |it, _: &mut u32| unsafe { sblog_node_open(at, len, me, n, page, tick, numbers, receipts, durable, it) };
        Ok(Node(Held::opened(sblog_node_close, open)?))
    }

    /// The same with this opening state in place of zeros. One of another length than the image's is refused as bytes, by fault 9.
    pub fn open_with(image: &[u8], me: u8, n: u8, limits: Limits, state: &[u8]) -> Done<Node> {
        let Limits { page, tick, numbers, receipts, is_durable } = limits;
        let (at, len, durable, state, state_len) = (image.as_ptr(), image.len(), is_durable.into(), state.as_ptr(), state.len());
        let open = |it, fault: &mut u32| unsafe {
            *fault = 9;
            sblog_node_open_with(at, len, me, n, page, tick, numbers, receipts, durable, state, state_len, it)
        };
        Ok(Node(Held::opened(sblog_node_close, open)?))
    }

    /// Opens it from what was kept, in an incarnation that is higher than any before.
    pub fn revive(image: &[u8], kept: &[u8], incarnation: u64, limits: Limits) -> Done<Node> {
        let Limits { page, tick, numbers, receipts, is_durable } = limits;
        let (at, len, kept, kept_len, durable) = (image.as_ptr(), image.len(), kept.as_ptr(), kept.len(), is_durable.into());
        let open = |it, fault: &mut u32| unsafe {
            sblog_node_revive(at, len, kept, kept_len, incarnation, page, tick, numbers, receipts, durable, it, fault)
        };
        Ok(Node(Held::opened(sblog_node_close, open)?))
    }

    /// Opens it from the bytes of [`suspend`](Node::suspend) as it was, in the same incarnation: once, and only if it did nothing since.
    pub fn resume(image: &[u8], suspended: &[u8], limits: Limits) -> Done<Node> {
        let Limits { page, tick, numbers, receipts, is_durable } = limits;
        let (at, len, bytes, bytes_len, durable) = (image.as_ptr(), image.len(), suspended.as_ptr(), suspended.len(), is_durable.into());
        let open = |it, fault: &mut u32| unsafe {
            sblog_node_resume(at, len, bytes, bytes_len, page, tick, numbers, receipts, durable, it, fault)
        };
        Ok(Node(Held::opened(sblog_node_close, open)?))
    }

    /// Runs the handler on the message that it received, or on the next one that is replayed; whether there was one.
    pub fn work(&mut self) -> Done<bool> {
        Ok(some(done(unsafe { sblog_node_work(self.0.at()) }))?.is_some())
    }

    /// The call that [`work`](Node::work) would make, if there is one, for a host that makes it as machine code.
    pub fn job(&self) -> Done<Option<Job>> {
        let mut words = [0; 6];
        let array = some(self.0.bytes(|it, out, room, size| unsafe { sblog_node_job(it, out, room, size, &mut words) }))?;
        let [incarnation, received, message_len, me, from, count] = words;
        Ok(array.map(|array| Job { incarnation, received, message_len, me, from, count, array }))
    }

    /// Takes in what that call left in the job's array and in its record.
    pub fn done(&mut self, job: &Job, record: &[u8]) -> Done<()> {
        let Job { incarnation, received, ref array, .. } = *job;
        let (at, len, record, record_len) = (array.as_ptr(), array.len(), record.as_ptr(), record.len());
        Ok(done(unsafe { sblog_node_done(self.0.at(), incarnation, received, at, len, record, record_len) })?)
    }

    /// The bytes that are to be kept. It drops what comes until [`saved`](Node::saved).
    pub fn checkpoint(&mut self) -> Done<Vec<u8>> {
        Ok(self.0.bytes(|it, out, room, size| unsafe { sblog_node_checkpoint(it, out, room, size) })?)
    }

    /// They are kept: what waited for that goes out.
    pub fn saved(&mut self) -> Done<()> {
        Ok(done(unsafe { sblog_node_saved(self.0.at()) })?)
    }

    /// The bytes of the whole node, to be kept while its program ends: no peer will wait for it. It is refused unless the node is up,
    /// its last checkpoint is saved, and it received nothing since. It stays open: drop it, and send nothing that it still has to give.
    pub fn suspend(&mut self) -> Done<Vec<u8>> {
        Ok(self.0.bytes(|it, out, room, size| unsafe { sblog_node_suspend(it, out, room, size) })?)
    }

    /// Its numbers, and what it does.
    pub fn standing(&self) -> Done<Standing> {
        let mut words = [0; 10];
        done(unsafe { sblog_node_standing(self.0.at(), &mut words) })?;
        let [length, base, incarnation, stage, exact, receipts, entries, packets, replays, waited_for] = words;
        let (stage, is_exact) = (Stage::of(stage as u32), exact == 1);
        Ok(Standing { length, base, incarnation, stage, is_exact, receipts, entries, packets, replays, waited_for })
    }

    /// How many sends and outputs helpers refused in this life, by the code that the handler got, 1 to 3.
    pub fn refused(&self, code: u32) -> u64 {
        unsafe { sblog_node_refused(self.0.at(), code) }
    }

    /// The state that its handler left last.
    pub fn state(&self) -> Done<Vec<u8>> {
        Ok(self.0.bytes(|it, out, room, size| unsafe { sblog_node_state(it, out, room, size) })?)
    }
}

carries!(Node: sblog_node_receive, sblog_node_receive_all, sblog_node_take, sblog_node_take_all, sblog_node_tick);
