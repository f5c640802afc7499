//! `deliver`: see the script beside this folder. The packets are those of the published crate's encoder; the row and the tables are those
//! that it has. The layout stands in docs/DELIVERY.md.
use raptorq_lent::rng::lent::published;
use raptorq_lent::systematic_constants::SYSTEMATIC_INDICES_AND_PARAMETERS as TABLE_2;
use raptorq_lent::{Encoder, ObjectTransmissionInformation};
use std::error::Error;
use std::fmt::Display;
use std::str::FromStr;

/// A small generator of its own (xorshift64*), so that a seed loses the same packets on every machine.
struct Random(u64);

impl Random {
    fn below(&mut self, n: usize) -> usize {
        self.0 ^= self.0 >> 12;
        self.0 ^= self.0 << 25;
        self.0 ^= self.0 >> 27;
        (self.0.wrapping_mul(0x2545_F491_4F6C_DD1D) % n as u64) as usize
    }
}

struct Wish {
    files: Vec<String>,
    symbol_size: u16,
    alignment: u8,
    lose: usize,
    repair: u32,
    first_repair: u32,
    twice: usize,
    times: usize,
    others: usize,
    damage: String,
    row: Option<[u32; 5]>,
    seed: u64,
}

fn number<N: FromStr<Err: Display>>(option: &str, value: &str) -> Result<N, String> {
    value.parse().map_err(|why| format!("{option} {value}: {why}"))
}

/// The five numbers of a row, with commas between.
fn row(option: &str, value: &str) -> Result<[u32; 5], String> {
    let numbers: Vec<u32> = value.split(',').map(|n| number(option, n)).collect::<Result<_, _>>()?;
    numbers.try_into().map_err(|_| format!("{option} {value}: it takes five numbers"))
}

fn wish() -> Result<Wish, Box<dyn Error>> {
    let mut w = Wish {
        files: vec![],
        symbol_size: 64,
        alignment: 1,
        lose: 0,
        repair: 0,
        first_repair: 0,
        twice: 0,
        times: 1,
        others: 0,
        damage: "none".into(),
        row: None,
        seed: 1,
    };
    let mut words = std::env::args().skip(1);
    while let Some(word) = words.next() {
        if !word.starts_with("--") {
            w.files.push(word);
            continue;
        }
        let value = words.next().ok_or(format!("{word} needs a value"))?;
        match word.as_str() {
            "--symbol-size" => w.symbol_size = number(&word, &value)?,
            "--align" => w.alignment = number(&word, &value)?,
            "--lose" => w.lose = number(&word, &value)?,
            "--repair" => w.repair = number(&word, &value)?,
            "--first-repair" => w.first_repair = number(&word, &value)?,
            "--twice" => w.twice = number(&word, &value)?,
            "--times" => w.times = number(&word, &value)?,
            "--others" => w.others = number(&word, &value)?,
            "--damage" => w.damage = value,
            "--row" => w.row = Some(row(&word, &value)?),
            "--seed" => w.seed = number(&word, &value)?,
            _ => return Err(format!("there is no option {word}").into()),
        }
    }
    if w.files.len() != 2 {
        return Err("it takes FILE and OUT".into());
    }
    if w.symbol_size == 0 || w.alignment == 0 || w.symbol_size % u16::from(w.alignment) != 0 {
        return Err("the symbol size is a multiple of the alignment, and neither is 0".into());
    }
    Ok(w)
}

/// The packets that arrive: source packets but those lost, repair packets, all of them so many times, some once more, and packets of block 1 between them,
/// in an order that the seed gives.
fn arrivals(w: &Wish, encoder: &Encoder, random: &mut Random) -> Result<Vec<Vec<u8>>, Box<dyn Error>> {
    let block = &encoder.get_block_encoders()[0];
    let mut packets = block.source_packets();
    if w.lose > packets.len() {
        return Err(format!("the block has only {} source packets", packets.len()).into());
    }
    for _ in 0..w.lose {
        packets.remove(random.below(packets.len()));
    }
    packets.extend(block.repair_packets(w.first_repair, w.repair));
    let mut packets: Vec<Vec<u8>> = packets.iter().map(|p| p.serialize()).collect();
    packets = std::iter::repeat_n(packets, w.times).flatten().collect();
    for _ in 0..w.twice.min(packets.len()) {
        packets.push(packets[random.below(packets.len())].clone());
    }
    for _ in 0..w.others {
        let mut other: Vec<u8> = (0..4 + w.symbol_size).map(|_| random.below(256) as u8).collect();
        other[0] = 1;
        packets.push(other);
    }
    for i in (1..packets.len()).rev() {
        packets.swap(i, random.below(i + 1));
    }
    Ok(packets)
}

/// What happens to it on the way.
fn damage(w: &Wish, head: &mut [u8], packets: &mut [Vec<u8>], random: &mut Random) -> Result<(), Box<dyn Error>> {
    let (some, at) = (random.below(packets.len().max(1)), 4 + random.below(w.symbol_size.into()));
    let none = "no packet came that could be damaged";
    let packet = packets.get_mut(some).ok_or(none);
    match w.damage.as_str() {
        "none" => {}
        "symbol" => packet?[at] ^= 1 << random.below(8),
        "id" => packet?[3] ^= 1,
        "block" => packet?[0] = 1,
        "end" => drop(packets.last_mut().ok_or(none)?.pop()),
        "empty" => head[..5].fill(0),
        "alignment" => head[11] = 0,
        "size" => head[6..8].fill(0),
        "no-blocks" => head[8] = 0,
        "no-sub-blocks" => head[9..11].fill(0),
        "crowded" => {
            let units = w.symbol_size / u16::from(w.alignment);
            let more = units.checked_add(1).ok_or("no N is above T/Al")?;
            head[9..11].copy_from_slice(&more.to_be_bytes());
        }
        "blocks" => head[8] = 2,
        "sub-blocks" => head[9..11].copy_from_slice(&[0, 2]),
        other => return Err(format!("there is no damage {other}").into()),
    }
    Ok(())
}

fn deliver() -> Result<(), Box<dyn Error>> {
    let w = wish()?;
    let object = std::fs::read(&w.files[0]).map_err(|why| format!("{}: {why}", w.files[0]))?;
    let k = object.len().div_ceil(w.symbol_size.into());
    let &(kp, j, s, h, lt) = TABLE_2.iter().find(|row| row.0 as usize >= k).ok_or("one block holds at most 56,403 symbols: take a larger --symbol-size")?;
    let encoder = Encoder::new(&object, ObjectTransmissionInformation::new(object.len() as u64, w.symbol_size, 1, 1, w.alignment));
    let mut random = Random(w.seed.wrapping_mul(0x9E37_79B9_7F4A_7C15) | 1);
    let mut packets = arrivals(&w, &encoder, &mut random)?;
    let mut out = encoder.get_config().serialize().to_vec();
    for n in w.row.unwrap_or([kp, j, s, h, lt]).into_iter().chain(published()) {
        out.extend(n.to_be_bytes());
    }
    damage(&w, &mut out, &mut packets, &mut random)?;
    out.extend(packets.concat());
    std::fs::write(&w.files[1], &out).map_err(|why| format!("{}: {why}", w.files[1]))?;
    eprintln!("F {} T {} K {k} K' {kp}: {} packets, damage: {}, {} bytes", object.len(), w.symbol_size, packets.len(), w.damage, out.len());
    Ok(())
}

fn main() {
    if let Err(why) = deliver() {
        eprintln!("deliver: {why}");
        std::process::exit(2);
    }
}
