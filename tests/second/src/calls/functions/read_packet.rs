//! Calls of `read_packet`.

use crate::calls::checker::Call;
use crate::calls::library::{Library, PacketNumbers};
use crate::calls::memory::{Memory, Piece};
use crate::faults;
use crate::reader::{read, Packet};

pub struct ReadPacket<'a> {
    pub octets: &'a [u8],
}

impl Call for ReadPacket<'_> {
    const FUNCTION: &'static str = "read_packet";
    const ANSWERS: &'static [u8] = &[0, 1, 2, 3, 4, 5, 6, 7];
    // The Space Packet's header has six octets.
    const HEADERS: &'static [usize] = &[1, 2, 4, 6, 8];
    const FAULTS: &'static [&'static str] = &faults::KINDS;

    fn pieces(&self) -> Vec<Piece<'_>> {
        vec![
            Piece::Input("octets", self.octets),
            Piece::Numbers("packet", 11),
            Piece::Size("place"),
        ]
    }

    fn expect(&self, memory: &mut Memory) -> u8 {
        match read(self.octets) {
            Ok(packet) => {
                memory.put_numbers("packet", &told(&packet));
                0
            }
            Err(fault) => {
                memory.put_size("place", fault.place);
                fault.number
            }
        }
    }

    fn make(&self, library: &Library, memory: &mut Memory) -> u8 {
        let octets = memory.pointer("octets");
        let packet = memory.pointer("packet").cast();
        let place = memory.pointer("place").cast();
        // SAFETY: the pieces are apart, as long as is told, and not null.
        unsafe { (library.read_packet)(octets, self.octets.len(), packet, place) }
    }

    fn header(&self, after: &Memory) -> Option<usize> {
        let [.., offset, _] = after.numbers::<11>("packet");
        Some(offset as usize)
    }

    fn place(&self, after: &Memory) -> Option<usize> {
        Some(after.size("place"))
    }
}

/// What is told of a packet, in the struct's order.
pub fn told(packet: &Packet<'_>) -> PacketNumbers {
    let mut numbers = [0; 11];
    match packet {
        Packet::Space(p) => {
            let fields = [0b000, p.packet_type, p.secondary, p.apid, p.flags, p.count];
            numbers[..6].copy_from_slice(&fields);
            numbers[9..].copy_from_slice(&[6, p.data.len() as u32]);
        }
        Packet::Encap(p) => {
            numbers[0] = 0b111;
            numbers[6..9].copy_from_slice(&[p.protocol, p.user, p.extension]);
            numbers[9..].copy_from_slice(&[p.header_octets as u32, p.content.len() as u32]);
        }
    }
    numbers
}
