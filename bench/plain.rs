//! The floor that bench/store.py measures runs beside: `BTreeMap`s in memory and one file that is appended to.
//! Built by `rustc -O`. It prints the seconds that its work took.
use std::collections::BTreeMap;
use std::fs::{File, OpenOptions, read, read_to_string};
use std::io::Write;
use std::time::Instant;

type Map = BTreeMap<String, String>;

fn put(map: &mut Map, block: &mut String, key: String) {
    block.push_str(&key);
    block.push('\n');
    map.insert(key, String::from("1"));
}

fn write(file: &mut File, block: &str, synced: bool) {
    file.write_all(block.as_bytes()).unwrap();
    if synced {
        file.sync_data().unwrap();
    }
}

fn opened(path: &str) -> Map {
    let mut map = Map::new();
    for line in read_to_string(path).unwrap().lines() {
        map.insert(line.to_string(), String::from("1"));
    }
    map
}

/// The tables of entities: their ids, properties, index, links and links back, by the bytes that a store has for keys.
#[derive(Default)]
struct Tables {
    maps: [BTreeMap<Vec<u8>, Vec<u8>>; 5],
}

const ENTITIES: usize = 0;
const PROPERTIES: usize = 1;
const INDEX: usize = 2;
const LINKS: usize = 3;
const BACK: usize = 4;

enum Value {
    Int(i64),
    Text(String),
}

impl Value {
    fn stored(&self) -> Vec<u8> {
        match self {
            Value::Int(number) => [&[2][..], &number.to_be_bytes()].concat(),
            Value::Text(text) => [&[3][..], text.as_bytes()].concat(),
        }
    }

    fn key(&self) -> Vec<u8> {
        match self {
            Value::Int(number) => [&[2][..], &(*number as u64 ^ 1 << 63).to_be_bytes()].concat(),
            Value::Text(text) => [&[3][..], text.to_ascii_lowercase().as_bytes(), &[0]].concat(),
        }
    }
}

/// The five properties of an entity: three that it has alone, one that two share, one that four share.
fn value_of(number: u64, property: u32) -> Value {
    match property {
        0 => Value::Int(number as i64),
        1 => Value::Text(format!("Entity {number:08}")),
        2 => Value::Text(format!("user{number}@example.org")),
        3 => Value::Int(number as i64 / 2),
        _ => Value::Text(format!("Team {}", number / 4)),
    }
}

fn id(number: u64) -> [u8; 8] {
    number.to_be_bytes()
}

fn index_front(property: u32, value: &Value) -> Vec<u8> {
    [&[0; 4][..], &property.to_be_bytes(), &value.key()].concat()
}

impl Tables {
    fn put(&mut self, block: &mut Vec<u8>, map: usize, key: Vec<u8>, value: Vec<u8>) {
        block.push(map as u8);
        for part in [&key, &value] {
            block.extend_from_slice(&(part.len() as u16).to_be_bytes());
            block.extend_from_slice(part);
        }
        self.maps[map].insert(key, value);
    }

    fn make(&mut self, block: &mut Vec<u8>, number: u64) {
        self.put(block, ENTITIES, id(number).to_vec(), Vec::new());
        for property in 0..5 {
            let value = value_of(number, property);
            let key = [&id(number)[..], &property.to_be_bytes()].concat();
            assert!(!self.maps[PROPERTIES].contains_key(&key));
            self.put(block, PROPERTIES, key, value.stored());
            let key = [&index_front(property, &value)[..], &id(number)[4..]].concat();
            self.put(block, INDEX, key, Vec::new());
        }
        for link in 0..if number < 2 { 0 } else { 2 } {
            let (source, target) = (id(number), id(number - 1 - link));
            let name = (link as u32).to_be_bytes();
            assert!(self.maps[ENTITIES].contains_key(&target[..]));
            self.put(block, LINKS, [&source[..], &name, &target].concat(), Vec::new());
            self.put(block, BACK, [&target[..], &name, &source].concat(), Vec::new());
        }
    }

    fn opened(path: &str) -> Tables {
        let (mut tables, bytes) = (Tables::default(), read(path).unwrap());
        let mut rest = &bytes[..];
        while let Some((map, mut behind)) = rest.split_first() {
            let parts = [(); 2].map(|()| {
                let (length, from) = behind.split_at(2);
                let (part, next) = from.split_at(u16::from_be_bytes([length[0], length[1]]) as usize);
                behind = next;
                part.to_vec()
            });
            let [key, value] = parts;
            tables.maps[*map as usize].insert(key, value);
            rest = behind;
        }
        tables
    }

    fn found(&self, number: u64, property: u32) -> Vec<u32> {
        let front = index_front(property, &value_of(number, property));
        let from = self.maps[INDEX].range(front.clone()..);
        let keys = from.take_while(|entry| entry.0.starts_with(&front));
        keys.map(|entry| u32::from_be_bytes(*entry.0.last_chunk().unwrap())).collect()
    }
}

fn main() {
    let words: Vec<String> = std::env::args().collect();
    let (what, path, count) = (words[1].as_str(), &words[2], words[3].parse::<u64>().unwrap());
    let append = || OpenOptions::new().create(true).append(true).open(path).unwrap();
    let start = Instant::now();
    match what {
        "commits" | "synced" => {
            let (mut map, mut file) = (Map::new(), append());
            for number in 0..count {
                let mut block = String::new();
                put(&mut map, &mut block, format!("T/{number:08}/n/1"));
                write(&mut file, &block, what == "synced");
            }
        }
        "whole" => {
            let (mut map, mut file) = (Map::new(), append());
            let mut block = String::new();
            for number in 0..count {
                put(&mut map, &mut block, format!("T/n/{number:08}"));
            }
            write(&mut file, &block, true);
        }
        "open" => assert_eq!(opened(path).len() as u64, count),
        "finds" => {
            let map = opened(path);
            for number in 0..count {
                assert!(map.contains_key(&format!("T/n/{number:08}")));
            }
        }
        "entities" => {
            let (mut tables, mut file) = (Tables::default(), append());
            let in_one = words[4].parse::<u64>().unwrap();
            for first in (0..count).step_by(in_one as usize) {
                let mut block = Vec::new();
                for number in first..count.min(first + in_one) {
                    tables.make(&mut block, number);
                }
                file.write_all(&block).unwrap();
            }
            file.sync_data().unwrap();
        }
        "tables" => assert_eq!(Tables::opened(path).maps[ENTITIES].len() as u64, count),
        "found" => {
            let (tables, asked) = (Tables::opened(path), words[4].parse::<u64>().unwrap());
            let mut ids = 0;
            for turn in 0..asked {
                ids += tables.found(turn / 5 * 7919 % count, (turn % 5) as u32).len();
            }
            assert_eq!(ids as u64, asked / 5 * 9);
        }
        _ => panic!("no such work"),
    }
    println!("{}", start.elapsed().as_secs_f64());
}
