//! Does the same work on each of several maps, in turn, in one process, so many times. Prints a line for each map and each
//! part of its work, in the order in which the parts began: the map, the part, the least nanoseconds of a key or of a walk
//! below a prefix, and, where they are counted, the bytes of a key in use at the part's end.
//! Arguments: SHAPE COUNT RUNS warm|cold|brief MAP..; brief ends after the look-ups; `levels` in the place of a map prints how deep its tree is.

mod btree;
mod hashed;
mod heap;
mod keys;
mod linked;
mod parts;
mod peers;
mod proved;
mod strings;
mod tree;

use keys::Work;

fn run(map: &str, work: &Work) {
    match map {
        "library" => proved::byte_map(work),
        "kit" => proved::kit_map(work),
        "store" => proved::store(work),
        "texts" => proved::text_map(work),
        "strings" => strings::run(work),
        "hinted" => proved::hinted_map(work),
        "hashed" => hashed::run(work),
        "btree" => btree::run(work),
        "linked" => linked::run_linked(work),
        "plain" => linked::run_plain(work),
        _ => assert!(peers::run(map, work), "no such map: {map}"),
    }
}

fn report(map: &str, work: &Work, least: &[f64], noted: &[Option<parts::Noted>]) {
    for part in parts::order() {
        let Some(it) = noted[*part].filter(|_| *part != parts::REST) else { continue };
        let count = if *part == parts::BELOW { work.prefixes.count() } else { work.keys.count() };
        let (time, bytes) = (least[*part] * 1e9 / count as f64, it.bytes as f64 / count as f64);
        println!("{map} {} {time:.1} {bytes:.1}", parts::NAMES[*part]);
    }
}

fn report_levels(work: &Work) {
    let mut sorted: Vec<&[u8]> = work.keys.iter().collect();
    sorted.sort();
    let bytes: usize = sorted.iter().map(|key| key.len()).sum();
    let count = sorted.len() as f64;
    let compared = btree::comparisons(work) as f64 / count;
    let levels = keys::levels(&sorted, 0) as f64 / count;
    println!("{count} {:.1} {levels:.2} {compared:.2} {}", bytes as f64 / count, work.prefixes.count());
}

fn main() {
    let words: Vec<String> = std::env::args().skip(1).collect();
    let [shape, count, runs, caches, maps @ ..] = words.as_slice() else {
        panic!("SHAPE COUNT RUNS warm|cold|brief MAP..");
    };
    let work = Work::new(shape, count.parse().unwrap());
    if maps.iter().any(|map| map == "levels") {
        return report_levels(&work);
    }
    match caches.as_str() {
        "cold" => parts::make_cold(),
        "brief" => parts::end_after(2),
        _ => (),
    }
    let runs: usize = runs.parse().unwrap();
    let mut least = vec![[f64::INFINITY; parts::NAMES.len()]; maps.len()];
    for turn in 1..=runs {
        for (map, least) in maps.iter().zip(&mut least) {
            heap::give_back();
            parts::start();
            heap::start();
            run(map, &work);
            let noted = parts::finish();
            for (least, it) in least.iter_mut().zip(&noted) {
                *least = it.map_or(*least, |it| least.min(it.seconds));
            }
            if turn == runs {
                report(map, &work, least, &noted);
            }
        }
    }
}
