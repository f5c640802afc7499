//! What the published crate answered and sent, as the repository has it on record: no other crate is needed to hold this one to it.
#![forbid(unsafe_code)]
mod common;
use common::{Packet, encoded, fresh, take_all};
use spoonripple::headers::{ObjectTransmissionInformation, Parts, PayloadId, partition, read_packet};
use spoonripple::tuples::{Isi, Tuple, deg, isi, rand, tuple};
use spoonripple::{Block, Refusal, Row, Tables, Verdict};
use std::path::Path;

fn file(path: &str) -> Vec<u8> {
    let path = Path::new(env!("CARGO_MANIFEST_DIR")).join("../..").join(path);
    std::fs::read(&path).unwrap_or_else(|why| panic!("{}: {why}", path.display()))
}

fn text(path: &str) -> String {
    String::from_utf8(file(path)).unwrap()
}

/// The answer to one question of crates/headers_vectors: a letter and seven numbers, of which those that it does not need are 0.
fn answer(tables: Tables, kind: &str, n: [u64; 7]) -> Result<Vec<u32>, Refusal> {
    let row = |n: [u64; 7]| Row::new([n[0], n[1], n[2], n[3], n[4]].map(|x| x as u32));
    let w = n.map(|x| x as u32);
    Ok(match kind {
        "d" => vec![deg(w[0], w[1])?],
        "p" => partition(w[0], w[1]).map(|Parts { long_size, short_size, long, short }| vec![long_size, short_size, long, short])?,
        "r" => vec![rand(tables, w[0], w[1] as u8, w[2])?],
        "c" => {
            let [transfer_length, t, z, subs, al, ..] = n;
            let (symbol_size, num_source_blocks, num_sub_blocks, symbol_alignment) = (t as u16, z as u8, subs as u16, al as u8);
            ObjectTransmissionInformation { transfer_length, symbol_size, num_source_blocks, num_sub_blocks, symbol_alignment }.check()?;
            vec![]
        }
        "w" => row(n).map(|row| vec![row.l(), row.p(), row.b(), row.p1()])?,
        "i" => vec![isi(row(n)?, w[5], w[6])?.number()],
        "t" => {
            let Tuple { d, a, b, d1, a1, b1 } = tuple(row(n)?, tables, Isi::of_row(w[5]));
            vec![d, a, b, d1, a1, b1]
        }
        _ => panic!("what is {kind}?"),
    })
}

#[test]
fn the_answers_on_record() {
    let (questions, answers) = (text("crates/headers_vectors/stdin"), text("crates/headers_vectors/stdout"));
    let numbers: Vec<u32> = questions.lines().take(1024).map(|line| line.parse().unwrap()).collect();
    assert_eq!(Tables::new(&numbers), Ok(Tables::published()));
    let (mut kinds, mut cases) = (std::collections::BTreeSet::new(), 0);
    for (question, given) in questions.lines().skip(1024).zip(answers.lines()) {
        let (kind, rest) = question.split_once(' ').unwrap();
        let n: Vec<u64> = rest.split(' ').map(|x| x.parse().unwrap()).collect();
        let said = match answer(Tables::published(), kind, n.try_into().unwrap()) {
            Ok(values) if kind == "c" && values.is_empty() => "accepted ".to_string(),
            Ok(values) => values.iter().map(|x| format!("{x} ")).collect(),
            Err(refusal) => format!("refused {} ", refusal.number()),
        };
        assert_eq!(said, given, "{question}");
        kinds.insert(kind);
        cases += 1;
    }
    assert!(kinds.len() == 7 && cases >= 3500, "{cases} answers of {} kinds", kinds.len());
}

/// A delivery in the layout of docs/DELIVERY.md: F, and a block with the row and the tables that it carries, which has taken the packets.
fn delivered<'a>(bytes: &[u8], tables: &'a mut Vec<u32>) -> (usize, u32, Block<'a>, Vec<Packet>) {
    let info = ObjectTransmissionInformation::read(&bytes[..12]).unwrap();
    assert_eq!((info.check(), info.num_source_blocks, info.num_sub_blocks), (Ok(()), 1, 1));
    let (f, t) = (info.transfer_length as usize, info.symbol_size);
    let words: Vec<u32> = bytes[12..4128].chunks(4).map(|word| u32::from_be_bytes(word.try_into().unwrap())).collect();
    let (row, k) = (Row::new(words[..5].try_into().unwrap()).unwrap(), f.div_ceil(t.into()) as u32);
    assert_eq!(Row::published(k), Ok(row));
    *tables = words[5..].to_vec();
    let mut block = Block::new(row, Tables::new(tables).unwrap(), k, t).unwrap();
    let packets = bytes[4128..].chunks(PayloadId::SIZE + usize::from(t)).map(|packet| {
        let (id, symbol) = read_packet(packet).unwrap();
        assert_eq!(id.source_block_number, 0);
        (id.encoding_symbol_id, symbol.to_vec())
    });
    let packets: Vec<Packet> = packets.collect();
    take_all(&mut block, &packets);
    (f, k, block, packets)
}

#[test]
fn the_deliveries_on_record() {
    let catalogue = file("crates/receive/stdout");
    let records: usize = catalogue.split_inclusive(|byte| *byte == b'\n').take(12).map(<[u8]>::len).sum();
    let sample = |name: &str| file(&format!("crates/receive_samples/data/{name}"));
    let solved = ["whole", "repaired", "repair-only", "twice"].map(|name| (sample(name), &catalogue[..records]));
    for (bytes, object) in solved.into_iter().chain([(file("crates/receive/stdin"), &catalogue[..])]) {
        let mut tables = vec![];
        let (f, _, mut block, packets) = delivered(&bytes, &mut tables);
        assert_eq!((block.solve(), f), (Verdict::Solved, object.len()));
        assert_eq!(&block.source().unwrap()[..f], object);
        // The same packets once more, from the last to the first.
        packets.iter().rev().for_each(|(esi, symbol)| block.take(*esi, symbol).unwrap());
        assert_eq!(block.verdict(), Some(Verdict::Solved));
    }
    let open = |shortfall| Verdict::Open { shortfall };
    for (name, verdict) in [("open", open(4)), ("no-packets", open(28)), ("wrong-symbol", Verdict::Contradiction), ("wrong-id", Verdict::Contradiction)] {
        let mut tables = vec![];
        assert_eq!(delivered(&sample(name), &mut tables).2.solve(), verdict, "{name}");
    }
}

/// The delivery of bindings/c: the bytes of its header, then packets of 8 bytes.
#[test]
fn the_delivery_of_the_c_example() {
    let bytes: Vec<u8> = include_str!("../data/delivery.txt").split(',').filter_map(|byte| byte.trim().parse().ok()).collect();
    let info = ObjectTransmissionInformation::read(&bytes[..12]).unwrap();
    assert_eq!((info.check(), info.transfer_length, info.symbol_size), (Ok(()), 34, 4));
    let packets = bytes[12..].chunks(8).map(|packet| read_packet(packet).unwrap()).map(|(id, symbol)| (id.encoding_symbol_id, symbol.to_vec()));
    let packets: Vec<Packet> = packets.collect();
    let solved = fresh(9, 4, &packets);
    assert_eq!(solved.source.unwrap(), [&include_bytes!("../data/object.txt")[..], &[0, 0]].concat());
    assert_eq!(fresh(9, 4, &packets[..8]).verdict, Verdict::Open { shortfall: 1 });
    // The packets that came, which the published crate encoded.
    for (esi, symbol) in packets {
        assert_eq!(encoded(9, 4, esi, &solved.set), symbol, "{esi}");
    }
}
