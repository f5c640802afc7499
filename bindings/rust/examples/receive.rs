//! The receiver to copy: a sender's 12 bytes of transmission information and its packets in, the object out.
//!
//! usage: receive [FILE]     FILE: the 12 bytes, and then packets of 4 + T bytes as they came; without it the recorded ones of data/stream.bin
//!
//! Standard output gets the object, or nothing where a block of it is not solved; what became of each block goes to standard error. Exit status: 0 with
//! the object, 1 without, 2 where the file or its transmission information cannot be taken.
#![forbid(unsafe_code)]
use spoonripple::headers::{ObjectTransmissionInformation, PayloadId, partition, read_packet};
use spoonripple::{Block, Refusal, Row, Tables, Verdict};
use std::error::Error;
use std::io::Write;
use std::path::PathBuf;
use std::process::ExitCode;

/// What the published crate's encoder sent of an object in three blocks, some packets lost.
const RECORDED: &[u8] = include_bytes!("../data/stream.bin");

/// The longest object that this station expects: a damaged header can name 900 GB, and its blocks would be allocated.
const LONGEST: u64 = 1 << 26;

/// An object on its way in. It keeps every packet of its blocks, since a station cannot ask again: what a contradiction came of can still be looked at.
pub struct Station {
    length: usize,
    packet_size: usize,
    blocks: Vec<Block<'static>>,
    /// How many packets of each block it takes before asking is worth it: each packet after the first question costs more.
    wanted: Vec<u64>,
}

impl Station {
    /// Refused where the header is not one that a sender may send, or that this station expects.
    pub fn new(header: &[u8]) -> Result<Station, Refusal> {
        let info = ObjectTransmissionInformation::read(header)?;
        // Reading applies no rule: without this a damaged header would make up a block size. After it T and Z are not 0.
        info.check()?;
        let (length, t) = (info.transfer_length as usize, info.symbol_size);
        // More sub-blocks than one would have to be put in order afterwards (RFC 6330, 4.4.1.2).
        if info.transfer_length > LONGEST || info.num_sub_blocks != 1 {
            return Err(Refusal::BadTransmission);
        }
        // ceil(F/T) symbols in Z blocks: the first ones have one symbol more.
        let parts = partition(length.div_ceil(t.into()) as u32, info.num_source_blocks.into())?;
        let counts = [vec![parts.long_size; parts.long as usize], vec![parts.short_size; parts.short as usize]].concat();
        let blocks = counts.iter().map(|k| Block::new(Row::published(*k)?, Tables::published(), *k, t)).collect::<Result<_, _>>()?;
        Ok(Station { length, packet_size: PayloadId::SIZE + usize::from(t), blocks, wanted: counts.iter().map(|k| (*k).into()).collect() })
    }

    /// How many bytes a packet has: this station expects one symbol in each.
    pub fn packet_size(&self) -> usize {
        self.packet_size
    }

    /// Hears a packet, of a block that is solved too: it goes on comparing. One that cannot be of this object, or for which its block has no room, is
    /// dropped: it must not stop the others.
    pub fn hear(&mut self, packet: &[u8]) {
        let Ok((id, symbol)) = read_packet(packet) else { return };
        let at = usize::from(id.source_block_number);
        let Some(block) = self.blocks.get_mut(at) else { return };
        if block.take(id.encoding_symbol_id, symbol).is_err() || (block.arrivals().esis.len() as u64) < self.wanted[at] {
            return;
        }
        // Of a block that is solved or a contradiction this costs nothing; an open one is not solved by fewer packets more than the shortfall says (the theorem
        // `not-before`). Each packet was worked in as it came, so that an answer is there soon after the last one that was needed.
        if let Verdict::Open { shortfall } = block.solve() {
            self.wanted[at] = block.arrivals().esis.len() as u64 + shortfall;
        }
    }

    /// What became of each block, by all that came.
    pub fn verdicts(&mut self) -> Vec<Verdict> {
        self.blocks.iter_mut().map(Block::solve).collect()
    }

    /// The object, if each block is solved. To be asked when no packet can come any more: a later one may contradict it.
    pub fn object(&self) -> Option<Vec<u8>> {
        let sources: Option<Vec<&[u8]>> = self.blocks.iter().map(Block::source).collect();
        // The last block ends in padding past F.
        sources.map(|all| all.concat()[..self.length].to_vec())
    }
}

/// Whether there was an object to write.
fn run() -> Result<bool, Box<dyn Error>> {
    let came = match std::env::args_os().nth(1).map(PathBuf::from) {
        Some(file) => std::fs::read(&file).map_err(|why| format!("{}: {why}", file.display()))?,
        None => RECORDED.to_vec(),
    };
    let (header, packets) = came.split_at(came.len().min(ObjectTransmissionInformation::SIZE));
    let mut station = Station::new(header)?;
    for packet in packets.chunks(station.packet_size()) {
        station.hear(packet);
    }
    for (number, verdict) in station.verdicts().iter().enumerate() {
        eprintln!("block {number}: {verdict}");
    }
    let Some(object) = station.object() else { return Ok(false) };
    let mut out = std::io::stdout();
    out.write_all(&object)?;
    out.flush()?;
    Ok(true)
}

fn main() -> ExitCode {
    match run() {
        Ok(written) => ExitCode::from(u8::from(!written)),
        Err(why) => {
            eprintln!("receive: {why}");
            ExitCode::from(2)
        }
    }
}
