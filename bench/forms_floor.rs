//! The floor for the forms of the variable services: plain Rust, std alone, that reads a Write request of 1,024 variables,
//! or a Read answer of 60,000 octets, into values of its own, and writes them again. It refuses what is not of the form,
//! and does nothing else.
//!
//!     rustc -O --edition 2024 -o forms_floor forms_floor.rs && ./forms_floor 1000 write

use std::env;

enum ObjectName {
    Vmd(Box<[u8]>),
    Domain(Box<[u8]>, Box<[u8]>),
    Association(Box<[u8]>),
}

enum Spec {
    Name(ObjectName),
    Address(u32),
}

enum Access {
    Specs(Vec<Spec>),
    List(ObjectName),
}

enum Data {
    Array(Vec<Data>),
    Structure(Vec<Data>),
    Boolean(bool),
    Bits(u8, Vec<u8>),
    Integer(i64),
    Unsigned(u32),
    Floating(Vec<u8>),
    Octets(Vec<u8>),
    Visible(Vec<u8>),
    Time(Vec<u8>),
}

enum AccessResult {
    Failure(u8),
    Success(Data),
}

struct Write {
    access: Access,
    values: Vec<Data>,
}

struct ReadAnswer {
    access: Option<Access>,
    results: Vec<AccessResult>,
}

/// One element: its identifier octet, as no number here is above 30, and its contents.
fn element<'a>(octets: &mut &'a [u8]) -> Option<(u8, &'a [u8])> {
    let (&tag, rest) = octets.split_first()?;
    let (&first, mut rest) = rest.split_first()?;
    let mut len = usize::from(first);
    if first >= 0x80 {
        let count = len - 0x80;
        if count == 0 || count > 8 || rest.len() < count {
            return None;
        }
        len = rest[..count].iter().fold(0, |len, &octet| len << 8 | usize::from(octet));
        rest = &rest[count..];
    }
    if rest.len() < len {
        return None;
    }
    *octets = &rest[len..];
    Some((tag, &rest[..len]))
}

fn required<'a>(octets: &mut &'a [u8], want: u8) -> Option<&'a [u8]> {
    element(octets).and_then(|(tag, contents)| (tag == want).then_some(contents))
}

fn integer(contents: &[u8]) -> Option<i64> {
    if contents.is_empty() || contents.len() > 8 {
        return None;
    }
    let sign = if contents[0] >= 0x80 { -1 } else { 0 };
    Some(contents.iter().fold(sign, |n, &octet| n << 8 | i64::from(octet)))
}

fn identifier(contents: &[u8]) -> Option<Box<[u8]>> {
    let is_name = |&octet: &u8| octet.is_ascii_alphanumeric() || octet == b'_' || octet == b'$';
    let is_spelled = !contents.is_empty() && contents.len() <= 32 && !contents[0].is_ascii_digit();
    (is_spelled && contents.iter().all(is_name)).then(|| contents.into())
}

fn name(mut contents: &[u8]) -> Option<ObjectName> {
    let (tag, inner) = element(&mut contents)?;
    let found = match tag {
        0x80 => ObjectName::Vmd(identifier(inner)?),
        0xA1 => {
            let mut inner = inner;
            let domain = identifier(required(&mut inner, 0x1A)?)?;
            let item = identifier(required(&mut inner, 0x1A)?)?;
            inner.is_empty().then_some(ObjectName::Domain(domain, item))?
        }
        0x82 => ObjectName::Association(identifier(inner)?),
        _ => return None,
    };
    contents.is_empty().then_some(found)
}

fn spec(mut contents: &[u8]) -> Option<Spec> {
    let (tag, mut inner) = element(&mut contents)?;
    let found = match tag {
        0xA0 => Spec::Name(name(inner)?),
        0xA1 => {
            let number = u32::try_from(integer(required(&mut inner, 0x80)?)?).ok()?;
            inner.is_empty().then_some(Spec::Address(number))?
        }
        _ => return None,
    };
    contents.is_empty().then_some(found)
}

fn access((tag, mut contents): (u8, &[u8])) -> Option<Access> {
    match tag {
        0xA0 => {
            let mut specs = Vec::new();
            while !contents.is_empty() {
                specs.push(spec(required(&mut contents, 0x30)?)?);
            }
            (1..=1024).contains(&specs.len()).then_some(Access::Specs(specs))
        }
        0xA1 => Some(Access::List(name(contents)?)),
        _ => None,
    }
}

fn all_data(mut contents: &[u8], depth: u8) -> Option<Vec<Data>> {
    let mut found = Vec::new();
    while !contents.is_empty() {
        found.push(data(element(&mut contents)?, depth)?);
    }
    Some(found)
}

fn data((tag, contents): (u8, &[u8]), depth: u8) -> Option<Data> {
    match tag {
        0xA1 => Some(Data::Array(all_data(contents, depth.checked_sub(1)?)?)),
        0xA2 => Some(Data::Structure(all_data(contents, depth.checked_sub(1)?)?)),
        0x83 => (contents.len() == 1).then(|| Data::Boolean(contents[0] != 0)),
        0x84 => {
            let (&unused, octets) = contents.split_first()?;
            (unused <= 7 && (unused == 0 || !octets.is_empty())).then_some(())?;
            let mut octets = octets.to_vec();
            if let Some(last) = octets.last_mut() {
                *last = *last >> unused << unused;
            }
            Some(Data::Bits(unused, octets))
        }
        0x85 => Some(Data::Integer(integer(contents)?)),
        0x86 => Some(Data::Unsigned(u32::try_from(integer(contents)?).ok()?)),
        0x87 => Some(Data::Floating(contents.to_vec())),
        0x89 => Some(Data::Octets(contents.to_vec())),
        0x8A => contents.iter().all(|octet| (0x20..=0x7E).contains(octet)).then(|| Data::Visible(contents.to_vec())),
        0x8C => Some(Data::Time(contents.to_vec())),
        _ => None,
    }
}

fn read_write(mut octets: &[u8]) -> Option<Write> {
    let access = access(element(&mut octets)?)?;
    let values = all_data(required(&mut octets, 0xA0)?, 10)?;
    octets.is_empty().then_some(Write { access, values })
}

fn result((tag, contents): (u8, &[u8])) -> Option<AccessResult> {
    if tag == 0x80 {
        let number = u8::try_from(integer(contents)?).ok()?;
        (number <= 11).then_some(AccessResult::Failure(number))
    } else {
        Some(AccessResult::Success(data((tag, contents), 10)?))
    }
}

fn read_answer(mut octets: &[u8]) -> Option<ReadAnswer> {
    let (tag, contents) = element(&mut octets)?;
    let (found, mut contents) = if tag == 0xA0 {
        let mut inner = contents;
        let found = access(element(&mut inner)?)?;
        inner.is_empty().then_some(())?;
        (Some(found), required(&mut octets, 0xA1)?)
    } else {
        (tag == 0xA1).then_some((None, contents))?
    };
    let mut results = Vec::new();
    while !contents.is_empty() {
        results.push(result(element(&mut contents)?)?);
    }
    octets.is_empty().then_some(ReadAnswer { access: found, results })
}

/// Makes the octets from this place on the contents of one element.
fn enclose(out: &mut Vec<u8>, since: usize, tag: u8) {
    let len = out.len() - since;
    let end = out.len();
    out.push(tag);
    if len < 0x80 {
        out.push(len as u8);
    } else {
        let digits = len.to_be_bytes();
        let digits = &digits[len.leading_zeros() as usize / 8..];
        out.push(0x80 | digits.len() as u8);
        out.extend_from_slice(digits);
    }
    let head = out.len() - end;
    out[since..].rotate_right(head);
}

fn put(out: &mut Vec<u8>, tag: u8, contents: &[u8]) {
    let since = out.len();
    if contents.len() < 0x80 {
        out.push(tag);
        out.push(contents.len() as u8);
        out.extend_from_slice(contents);
    } else {
        out.extend_from_slice(contents);
        enclose(out, since, tag);
    }
}

fn put_integer(out: &mut Vec<u8>, tag: u8, n: i64) {
    let octets = n.to_be_bytes();
    let sign = if n < 0 { !n } else { n };
    let len = 8 - (sign.leading_zeros() as usize - 1) / 8;
    put(out, tag, &octets[8 - len.min(8)..]);
}

fn put_name(out: &mut Vec<u8>, x: &ObjectName) {
    match x {
        ObjectName::Vmd(item) => put(out, 0x80, item),
        ObjectName::Domain(domain, item) => {
            let since = out.len();
            put(out, 0x1A, domain);
            put(out, 0x1A, item);
            enclose(out, since, 0xA1);
        }
        ObjectName::Association(item) => put(out, 0x82, item),
    }
}

fn put_access(out: &mut Vec<u8>, x: &Access) {
    let since = out.len();
    match x {
        Access::Specs(specs) => {
            for spec in specs {
                let since = out.len();
                let tag = match spec {
                    Spec::Name(name) => {
                        put_name(out, name);
                        0xA0
                    }
                    Spec::Address(number) => {
                        put_integer(out, 0x80, i64::from(*number));
                        0xA1
                    }
                };
                enclose(out, since, tag);
                enclose(out, since, 0x30);
            }
            enclose(out, since, 0xA0);
        }
        Access::List(name) => {
            put_name(out, name);
            enclose(out, since, 0xA1);
        }
    }
}

fn put_data(out: &mut Vec<u8>, x: &Data) {
    let since = out.len();
    match x {
        Data::Array(items) => {
            items.iter().for_each(|item| put_data(out, item));
            enclose(out, since, 0xA1);
        }
        Data::Structure(items) => {
            items.iter().for_each(|item| put_data(out, item));
            enclose(out, since, 0xA2);
        }
        Data::Boolean(b) => put(out, 0x83, &[if *b { 255 } else { 0 }]),
        Data::Bits(unused, octets) => {
            out.push(*unused);
            out.extend_from_slice(octets);
            enclose(out, since, 0x84);
        }
        Data::Integer(n) => put_integer(out, 0x85, *n),
        Data::Unsigned(n) => put_integer(out, 0x86, i64::from(*n)),
        Data::Floating(octets) => put(out, 0x87, octets),
        Data::Octets(octets) => put(out, 0x89, octets),
        Data::Visible(octets) => put(out, 0x8A, octets),
        Data::Time(octets) => put(out, 0x8C, octets),
    }
}

fn put_write(out: &mut Vec<u8>, x: &Write) {
    put_access(out, &x.access);
    let since = out.len();
    x.values.iter().for_each(|value| put_data(out, value));
    enclose(out, since, 0xA0);
}

fn put_answer(out: &mut Vec<u8>, x: &ReadAnswer) {
    let since = out.len();
    if let Some(access) = &x.access {
        put_access(out, access);
        enclose(out, since, 0xA0);
    }
    let since = out.len();
    for result in &x.results {
        match result {
            AccessResult::Failure(number) => put_integer(out, 0x80, i64::from(*number)),
            AccessResult::Success(found) => put_data(out, found),
        }
    }
    enclose(out, since, 0xA1);
}

fn write_request() -> Write {
    let named = |n: u32| Spec::Name(ObjectName::Vmd(format!("V{n:04}").into_bytes().into()));
    Write {
        access: Access::Specs((0..1024).map(named).collect()),
        values: (0..1024).map(Data::Integer).collect(),
    }
}

fn read_results() -> ReadAnswer {
    let pair = |n: u32| [Data::Integer(i64::MAX - i64::from(n)), Data::Octets(u64::from(n).to_be_bytes().to_vec())];
    let results = (0..3000).flat_map(pair).map(AccessResult::Success).collect();
    ReadAnswer { access: None, results }
}

/// So many turns over what was written first: it is read, and what was read is written.
fn turns<X>(item: X, rounds: u64, read: fn(&[u8]) -> Option<X>, put: fn(&mut Vec<u8>, &X)) -> (usize, usize) {
    let (mut first, mut out) = (Vec::new(), Vec::new());
    put(&mut first, &item);
    for _ in 0..rounds {
        if let Some(x) = read(&first) {
            out.clear();
            put(&mut out, &x);
        }
    }
    (first.len(), out.len())
}

fn main() {
    let words: Vec<String> = env::args().collect();
    let rounds = words[1].parse().expect("a number of turns");
    let (read, written) = match words[2].as_str() {
        "write" => turns(write_request(), rounds, read_write, put_write),
        _ => turns(read_results(), rounds, read_answer, put_answer),
    };
    println!("{read} {written}");
}
