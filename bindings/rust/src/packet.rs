//! Packets, one by one and in bundles.

use crate::code::numbers;
use crate::node::NodeError;
use crate::raw::*;

numbers! {
    /// What a packet is; `sblog.h` says it of each.
    PacketKind: Delivery = 1, Number = 2, Acknowledgement = 3, Ask = 4, Told = 5, Resume = 6, Restored = 7, Saved = 8
}

/// What a host has to know of a packet, besides its bytes: the fields of `sblog_label`.
#[allow(missing_docs)]
#[derive(Clone, Copy, Debug, PartialEq, Eq)]
pub struct Label {
    pub kind: PacketKind,
    pub from: u64,
    pub to: u64,
    pub ssn: u64,
    pub number: u64,
}

/// The label of the packet in these bytes. Others are refused, by fault 1 to 8.
pub fn packet_label(packet: &[u8]) -> Result<Label, NodeError> {
    let (mut words, mut fault) = ([0; 5], 0);
    let code = unsafe { sblog_packet_label(packet.as_ptr(), packet.len(), &mut words, &mut fault) };
    told(code, fault)?;
    let [kind, from, to, ssn, number] = words;
    Ok(Label { kind: PacketKind::of(kind as u32), from, to, ssn, number })
}

/// A packet, and the node that it goes to; 0 is the gateway.
#[allow(missing_docs)]
#[derive(Clone, Debug, PartialEq, Eq)]
pub struct Packet {
    pub to: u8,
    pub bytes: Vec<u8>,
}

/// The bytes of some packets, each after the two of its length, how many these are, and the node that they go to.
#[allow(missing_docs)]
#[derive(Clone, Debug, PartialEq, Eq)]
pub struct Bundle {
    pub to: u8,
    pub count: u64,
    pub bytes: Vec<u8>,
}

/// How many packets of a bundle were taken, how many were none, and for how many memory ran out.
#[allow(missing_docs)]
#[derive(Clone, Copy, Debug, PartialEq, Eq)]
pub struct Tally {
    pub taken: u64,
    pub refused: u64,
    pub lost: u64,
}

/// Gives a node or the gateway the calls by which packets come and go.
macro_rules! carries {
    ($party:ident: $receive:ident, $receive_all:ident, $take:ident, $take_all:ident, $tick:ident) => {
        impl $party {
            /// Takes the bytes of a packet that came.
            pub fn receive(&mut self, packet: &[u8]) -> Done<()> {
                self.0.told(|it, fault| unsafe { $receive(it, packet.as_ptr(), packet.len(), fault) })?;
                Ok(())
            }

            /// Takes each packet of a [bundle](crate::Bundle)'s bytes in their order, and a node's handler runs after each. Bytes that
            /// aren't whole packets after their lengths are refused whole, by fault 0.
            pub fn receive_all(&mut self, bundle: &[u8]) -> Done<crate::Tally> {
                let mut words = [0; 3];
                done(unsafe { $receive_all(self.0.at(), bundle.as_ptr(), bundle.len(), &mut words) })?;
                let [taken, refused, lost] = words;
                Ok(crate::Tally { taken, refused, lost })
            }

            /// The packet that waits first, if one does.
            pub fn take(&mut self) -> Done<Option<crate::Packet>> {
                let mut to = 0;
                let bytes = some(self.0.bytes(|it, out, room, size| unsafe { $take(it, out, room, size, &mut to) }))?;
                Ok(bytes.map(|bytes| crate::Packet { to, bytes }))
            }

            /// The first packets that wait, as many as go to one node and take `room` bytes at most, with the two before each. A first
            /// one that is longer comes alone.
            pub fn take_all(&mut self, room: usize) -> Done<Option<crate::Bundle>> {
                let (mut to, mut count) = (0, 0);
                let take = |out, room, size: &mut usize| unsafe { $take_all(self.0.at(), out, room, size, &mut to, &mut count) };
                let bytes = some(written(room, 19, take))?;
                Ok(bytes.map(|bytes| crate::Bundle { to, count, bytes }))
            }

            /// Sends again what isn't answered.
            pub fn tick(&mut self) -> Done<()> {
                Ok(done(unsafe { $tick(self.0.at()) })?)
            }
        }
    };
}

pub(crate) use carries;
