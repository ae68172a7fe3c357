//! What `path_index` does to load lines, as one writes it in Rust with nothing proved: `loading insert FILE` inserts each line
//! into a `BTreeMap`, `loading collect FILE` collects all, which are then sorted first. It prints the number of lines.

use std::collections::BTreeMap;
use std::env;
use std::fs::File;
use std::io::{self, BufRead, BufReader};

type Map = BTreeMap<Box<[u8]>, ()>;

fn lines(file: &str) -> io::Result<impl Iterator<Item = (Box<[u8]>, ())>> {
    let lines = BufReader::new(File::open(file)?).split(b'\n');
    Ok(lines.map(|line| (line.unwrap().into_boxed_slice(), ())))
}

fn main() -> io::Result<()> {
    let words: Vec<String> = env::args().collect();
    let [_, way, file] = words.as_slice() else { panic!("loading insert|collect FILE") };
    let mut map = Map::new();
    match way.as_str() {
        "insert" => lines(file)?.for_each(|(line, _)| _ = map.insert(line, ())),
        "collect" => map = lines(file)?.collect(),
        _ => panic!("loading insert|collect FILE"),
    }
    println!("{}", map.len());
    Ok(())
}
