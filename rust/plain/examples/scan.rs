//! The limit of any judging: how many bytes of a file are below 32, a block at a time. rust/bench/programs measures it.

use std::io::Read;

fn main() {
    let mut file = std::fs::File::open(std::env::args().nth(1).unwrap()).unwrap();
    let mut room = vec![0u8; 1 << 20];
    let mut low = 0usize;
    loop {
        let got = file.read(&mut room).unwrap();
        if got == 0 {
            break;
        }
        // Stretches so short that their count fits in a byte: the compiler makes vectors of it.
        low += room[..got].chunks(255).map(|c| c.iter().map(|&x| (x < 32) as u8).sum::<u8>() as usize).sum::<usize>();
    }
    println!("{low} bytes below 32");
}
