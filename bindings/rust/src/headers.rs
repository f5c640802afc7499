//! What a receiver reads before it touches a symbol: transmission information, payload ids, packets and partitions (RFC 6330, sections 3.2, 3.3 and 4.4).
use crate::refusal::{Refusal, done, values};
use crate::sys;

/// The FEC payload id at the front of each packet: 4 bytes (RFC 6330, 3.2).
#[derive(Clone, Copy, Debug, PartialEq, Eq, Hash)]
pub struct PayloadId {
    /// SBN: which source block the packet is of.
    pub source_block_number: u8,
    /// ESI: which of the block's encoding symbols is the packet's first.
    pub encoding_symbol_id: u32,
}

impl PayloadId {
    /// How many bytes it takes.
    pub const SIZE: usize = 4;

    /// Reads exactly 4 bytes. Refused: 8 of another length.
    pub fn read(bytes: &[u8]) -> Result<PayloadId, Refusal> {
        let [sbn, esi] = values(|out, room| unsafe { sys::spoonripple_payload_id_read(bytes.as_ptr(), bytes.len(), out, room) })?;
        Ok(PayloadId { source_block_number: sbn as u8, encoding_symbol_id: esi as u32 })
    }

    /// Writes 4 bytes at the front of `store`, of which the rest stays. Refused: 9 where the ESI is 2^24 or more, then 8 where the store is shorter.
    pub fn write(self, store: &mut [u8]) -> Result<(), Refusal> {
        done(unsafe { sys::spoonripple_payload_id_write(self.source_block_number, self.encoding_symbol_id, store.as_mut_ptr(), store.len()) })
    }
}

/// The object transmission information that a sender gives once for an object: 12 bytes (RFC 6330, 3.3.2 and 3.3.3).
#[derive(Clone, Copy, Debug, PartialEq, Eq, Hash)]
pub struct ObjectTransmissionInformation {
    /// F: the object's bytes.
    pub transfer_length: u64,
    /// T: the bytes of a symbol.
    pub symbol_size: u16,
    /// Z: how many source blocks.
    pub num_source_blocks: u8,
    /// N: how many sub-blocks in each source block.
    pub num_sub_blocks: u16,
    /// Al: what T is a multiple of.
    pub symbol_alignment: u8,
}

impl ObjectTransmissionInformation {
    /// How many bytes it takes.
    pub const SIZE: usize = 12;

    /// Reads exactly 12 bytes and applies no rule: [`check`](Self::check) does. Refused: 8 of another length.
    pub fn read(bytes: &[u8]) -> Result<ObjectTransmissionInformation, Refusal> {
        let [f, t, z, n, al] = values(|out, room| unsafe { sys::spoonripple_transmission_read(bytes.as_ptr(), bytes.len(), out, room) })?;
        Ok(ObjectTransmissionInformation {
            transfer_length: f,
            symbol_size: t as u16,
            num_source_blocks: z as u8,
            num_sub_blocks: n as u16,
            symbol_alignment: al as u8,
        })
    }

    /// Writes 12 bytes at the front of `store`, of which the rest stays, and applies no rule. Refused: 2 where F is 2^40 or more, then 8 where the store is shorter.
    pub fn write(self, store: &mut [u8]) -> Result<(), Refusal> {
        let (f, t, z, n, al) = self.numbers();
        done(unsafe { sys::spoonripple_transmission_write(f, t, z, n, al, store.as_mut_ptr(), store.len()) })
    }

    /// Refused: 3 where F is above 942,574,504,275; Al, T, Z or N is 0; T is no multiple of Al; N is above T/Al; or a block would have more than
    /// 56,403 symbols. So after it T, Z, N and Al may be divided by without asking again. The crate raptorq accepts T, Z or N of 0 and N above T/Al.
    ///
    /// F of 0 passes, and Z above ceil(F/T): a block without a symbol is refused later, by 9.
    pub fn check(self) -> Result<(), Refusal> {
        let (f, t, z, n, al) = self.numbers();
        done(unsafe { sys::spoonripple_transmission_check(f, t, z, n, al) })
    }

    fn numbers(self) -> (u64, u16, u8, u16, u8) {
        (self.transfer_length, self.symbol_size, self.num_source_blocks, self.num_sub_blocks, self.symbol_alignment)
    }
}

/// Takes a packet apart: its payload id, and the bytes of its symbols (RFC 6330, 4.4.2). Refused: 8 below 4 bytes.
pub fn read_packet(bytes: &[u8]) -> Result<(PayloadId, &[u8]), Refusal> {
    let [sbn, esi, from, len] = values(|out, room| unsafe { sys::spoonripple_packet_read(bytes.as_ptr(), bytes.len(), out, room) })?;
    let id = PayloadId { source_block_number: sbn as u8, encoding_symbol_id: esi as u32 };
    Ok((id, &bytes[from as usize..][..len as usize]))
}

/// Writes a packet at the front of `store`, of which the rest stays. Refused: 9 where the ESI is 2^24 or more, then 8 where the store is shorter.
pub fn write_packet(id: PayloadId, bytes: &[u8], store: &mut [u8]) -> Result<(), Refusal> {
    let PayloadId { source_block_number: sbn, encoding_symbol_id: esi } = id;
    done(unsafe { sys::spoonripple_packet_write(sbn, esi, bytes.as_ptr(), bytes.len(), store.as_mut_ptr(), store.len()) })
}

/// What [`partition`] answers: `long` parts of `long_size`, and then `short` parts of `short_size`.
#[derive(Clone, Copy, Debug, PartialEq, Eq)]
pub struct Parts {
    /// IL.
    pub long_size: u32,
    /// IS.
    pub short_size: u32,
    /// JL.
    pub long: u32,
    /// JS.
    pub short: u32,
}

/// Partition\[i, j\]: i things in j parts of nearly one size (RFC 6330, 4.4.1.2). Refused: 2 where j is 0.
pub fn partition(i: u32, j: u32) -> Result<Parts, Refusal> {
    let numbers = values(|out, room| unsafe { sys::spoonripple_partition(i, j, out, room) })?;
    let [long_size, short_size, long, short] = numbers.map(|x| x as u32);
    Ok(Parts { long_size, short_size, long, short })
}
