//! The items of a stream's packets, made as `listener` makes them, without contracts, for the yardsticks of `listener` and
//! `listen`.

use crate::aaf::HEADER;
use crate::pcap::u16_at;
use crate::schedule::{Bad, HeadRule, Item, Packet, Reason};
use crate::stream::read_packet;

/// The item of a packet, with its samples copied.
#[inline(always)]
pub fn item_of(frame: u64, arrival: i64, pdu: &[u8]) -> Item {
    let seq = pdu[2];
    let (size, rate) = match read_packet(pdu) {
        Ok((_, size, rate)) => (size, rate),
        Err(refusal) => {
            return Item::Bad(Bad {
                frame,
                arrival,
                seq,
                reason: Reason::Malformed(refusal.0),
            });
        }
    };
    let len = usize::from(u16_at(pdu, 20));
    let stamp = u32::from_be_bytes(pdu[12..16].try_into().unwrap());
    Item::Packet(Packet {
        frame,
        arrival,
        seq,
        mr: pdu[1] & 8 != 0,
        tu: pdu[3] & 1 != 0,
        stamp: (pdu[1] & 1 != 0).then_some(stamp),
        rule: if pdu[22] & 0x10 != 0 {
            HeadRule::Eight
        } else {
            HeadRule::Own
        },
        rate,
        count: len as u32 / size,
        bytes: pdu[HEADER..HEADER + len].to_vec(),
    })
}
