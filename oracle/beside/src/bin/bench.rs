//! `bench FILE N`: reads the message in FILE N times with the unchanged Rust and drops what came of it.

use sawp::parser::{Direction, Parse};
use sawp_diameter::diameter::Diameter;
use std::hint::black_box;

fn main() {
    let args: Vec<String> = std::env::args().collect();
    let [_, file, times] = &args[..] else {
        eprintln!("usage: bench FILE N");
        std::process::exit(2);
    };
    let bytes = std::fs::read(file).expect("FILE can be read");
    let times: usize = times.parse().expect("N is a number");
    for _ in 0..times {
        let read = Diameter {}.parse(black_box(&bytes), Direction::Unknown);
        assert!(read.is_ok(), "the message is refused");
        drop(black_box(read));
    }
}
