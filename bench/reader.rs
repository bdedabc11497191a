//! An unproved reader of a plain log of merges, which `bench/reading` times beside `log_input`: each line is looked
//! at once, the waits of all merges lie in one list, and a record takes the 48 bytes that one of any kind would.
use std::io::Read;

#[allow(dead_code)]
enum Record {
    Header { version: u32 },
    Merge { done: u32, first_wait: u32, waits: u32 },
    End { count: u32 },
    Other([u32; 10]),
}

#[allow(dead_code)]
struct Lined {
    line: u32,
    record: Record,
}

fn number(word: &[u8]) -> Option<u32> {
    if word.is_empty() || word.len() > 10 || (word[0] == b'0' && word.len() > 1) {
        return None;
    }
    let mut value = 0u64;
    for byte in word {
        let digit = byte.wrapping_sub(b'0');
        if digit > 9 {
            return None;
        }
        value = value * 10 + u64::from(digit);
    }
    u32::try_from(value).ok()
}

fn event(word: &[u8]) -> Option<u32> {
    number(word).filter(|n| *n > 0)
}

fn record(line: &[u8], waits: &mut Vec<u32>) -> Option<Record> {
    let mut words = line.split(|b| *b == b' ');
    let record = match words.next()? {
        b"merge" => {
            let done = event(words.next()?)?;
            let first_wait = waits.len() as u32;
            let list = words.next()?;
            if list != b"-" {
                for word in list.split(|b| *b == b',') {
                    waits.push(event(word)?);
                }
            }
            Record::Merge { done, first_wait, waits: waits.len() as u32 - first_wait }
        }
        b"legion-spy" => Record::Header { version: number(words.next()?)? },
        b"end" => Record::End { count: number(words.next()?)? },
        _ => return None,
    };
    if words.next().is_some() { None } else { Some(record) }
}

fn main() {
    let mut bytes = Vec::new();
    std::io::stdin().read_to_end(&mut bytes).unwrap();
    let mut waits = Vec::new();
    let mut records = Vec::new();
    let mut number = 0;
    for line in bytes[..bytes.len() - 1].split(|b| *b == b'\n') {
        number += 1;
        if line.is_empty() || line[0] == b'#' {
            continue;
        }
        match record(line, &mut waits) {
            Some(record) => records.push(Lined { line: number, record }),
            None => std::process::exit(2),
        }
    }
    println!("{} records, {} waits", records.len(), waits.len());
}
