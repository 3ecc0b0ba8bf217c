//! The floor for the tables of domains and of uploads: plain Rust, std alone, that loads a domain of 65,536 octets and
//! removes it, or copies the 4,096 octets in its middle, as an upload asks for them. Octets lie joined, with the lengths
//! of the segments beside.
//!
//!     rustc -O --edition 2024 -o domains_floor domains_floor.rs && ./domains_floor 1000 piece 1

use std::collections::HashMap;
use std::env;

const OCTETS: usize = 65_536;
const MOST: usize = 1_048_576;

struct Domain {
    loader: Option<u32>,
    octets: Vec<u8>,
    lengths: Vec<u32>,
}

struct Upload {
    number: i32,
    client: u32,
    domain: String,
    sent: usize,
    ended: bool,
}

type Domains = HashMap<String, Domain>;

/// A segment has come. Answers whether it was appended.
fn append(domains: &mut Domains, client: u32, name: &str, octets: &[u8]) -> bool {
    let Some(domain) = domains.get_mut(name) else {
        return false;
    };
    if domain.loader != Some(client) || domain.octets.len() + octets.len() > MOST {
        return false;
    }
    domain.octets.extend_from_slice(octets);
    domain.lengths.push(octets.len() as u32);
    true
}

fn load(domains: &mut Domains, segment: &[u8]) {
    let empty = Domain { loader: Some(1), octets: Vec::new(), lengths: Vec::new() };
    domains.insert("DOMAIN".to_string(), empty);
    for _ in 0..OCTETS / segment.len() {
        append(domains, 1, "DOMAIN", segment);
    }
    if let Some(domain) = domains.get_mut("DOMAIN") {
        domain.loader = None;
    }
}

fn load_once(domains: &mut Domains, segment: &[u8]) -> usize {
    load(domains, segment);
    domains.remove("DOMAIN").map_or(0, |domain| domain.octets.len())
}

/// The next piece of an upload, and whether more come after it.
fn piece(domains: &Domains, uploads: &[Upload], client: u32, number: i32) -> Option<(Vec<u8>, bool)> {
    let upload = uploads.iter().find(|upload| upload.client == client && upload.number == number)?;
    let domain = domains.get(&upload.domain).filter(|domain| domain.loader.is_none() && !upload.ended)?;
    let end = domain.octets.len().min(upload.sent + 4096);
    Some((domain.octets[upload.sent..end].to_vec(), end < domain.octets.len()))
}

fn main() {
    let words: Vec<String> = env::args().collect();
    let turns: u64 = words[1].parse().expect("a number of turns");
    let segment = vec![7; words[3].parse::<usize>().expect("a number of octets").clamp(1, OCTETS)];
    let mut domains = Domains::new();
    let mut told = 0;
    if words[2] == "load" {
        for _ in 0..turns {
            told = load_once(&mut domains, &segment);
        }
    } else {
        load(&mut domains, &segment);
        let uploads = [Upload { number: 1, client: 1, domain: "DOMAIN".to_string(), sent: OCTETS / 2, ended: false }];
        for _ in 0..turns {
            told = std::hint::black_box(piece(&domains, &uploads, 1, 1)).map_or(0, |(octets, _)| octets.len());
        }
    }
    println!("{told}");
}
