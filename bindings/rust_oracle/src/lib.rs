//! A block as its sender has it, by the published crate's encoder, for the tests of this package.
#![forbid(unsafe_code)]
use raptorq::{EncodingPacket, ObjectTransmissionInformation, SourceBlockDecoder, SourceBlockEncoder};

/// One source block of k symbols of t octets.
pub struct Sender {
    /// Its transmission information.
    pub config: ObjectTransmissionInformation,
    /// Its octets.
    pub data: Vec<u8>,
    /// Which also has the intermediate symbols.
    pub encoder: SourceBlockEncoder,
}

impl Sender {
    /// Octets that look like no pattern.
    pub fn new(k: u32, t: u16) -> Sender {
        let data: Vec<u8> = (0..k * u32::from(t)).map(|i| (i.wrapping_mul(2_654_435_761) >> 23) as u8).collect();
        let config = ObjectTransmissionInformation::new(data.len() as u64, t, 1, 1, 1);
        let encoder = SourceBlockEncoder::new(0, &config, &data);
        Sender { config, data, encoder }
    }

    /// The source packets but those that `lost` names, then repair packets.
    pub fn packets(&self, lost: impl Fn(u32) -> bool, repair: u32) -> Vec<EncodingPacket> {
        let mut sent = self.encoder.source_packets();
        sent.retain(|p| !lost(p.payload_id().encoding_symbol_id()));
        sent.extend(self.encoder.repair_packets(0, repair));
        sent
    }

    /// What the published decoder makes of them.
    pub fn decoded(&self, packets: Vec<EncodingPacket>) -> Option<Vec<u8>> {
        SourceBlockDecoder::new(0, &self.config, self.data.len() as u64).decode(packets)
    }
}

/// A packet's ESI and symbol.
pub fn parts(packet: &EncodingPacket) -> (u32, Vec<u8>) {
    (packet.payload_id().encoding_symbol_id(), packet.data().to_vec())
}
