//! Takes the original's text from where `INVOFI_SOURCE` says (a relative path counts from the
//! repository's top), or from its usual place beside the repository, and refuses any other text.

use std::path::{Path, PathBuf};
use std::{env, fs};

const USUAL_PLACE: &str = "../shared/docs/src/src--financing--src--lib.rs.txt";
const SHA256: &str = "a8cb8a8876002f76a62ac6432a87f07dad47b2f9ad2414cf35a69ed2fc8c4d86";

fn main() {
    println!("cargo:rerun-if-changed=build.rs");
    println!("cargo:rerun-if-env-changed=INVOFI_SOURCE");
    let source = source();
    println!("cargo:rerun-if-changed={}", source.display());
    let text = fs::read(&source).unwrap_or_else(|error| {
        panic!(
            "the original's text is not at {}: {error}; INVOFI_SOURCE names another place",
            source.display()
        )
    });
    let found = hexadecimal(&sha256(&text));
    assert!(
        found == SHA256,
        "{} is not the text that is compared: its sha256 is {found}, not {SHA256}",
        source.display()
    );
    let out = PathBuf::from(env::var_os("OUT_DIR").unwrap());
    let copy = out.join("financing.rs");
    fs::write(&copy, &text).unwrap();
    // The text names two test modules that are not published with it.
    for module in ["test.rs", "proptest.rs"] {
        fs::write(out.join(module), "").unwrap();
    }
    let module = format!(
        "#[allow(unused_attributes, clippy::clone_on_copy)]\n#[path = {:?}]\nmod financing;\n",
        copy.to_str().unwrap()
    );
    fs::write(out.join("module.rs"), module).unwrap();
}

fn source() -> PathBuf {
    let top = Path::new(&env::var_os("CARGO_MANIFEST_DIR").unwrap()).join("../..");
    match env::var_os("INVOFI_SOURCE") {
        Some(path) if !path.is_empty() => top.join(path),
        _ => top.join(USUAL_PLACE),
    }
}

fn hexadecimal(bytes: &[u8]) -> String {
    bytes.iter().map(|byte| format!("{byte:02x}")).collect()
}

/// The first 32 bits of the fractional part of the given root of each of the first 64 primes.
fn root_words(root: impl Fn(u32) -> f64) -> Vec<u32> {
    let primes = (2u32..).filter(|n| (2..*n).all(|d| n % d != 0)).take(64);
    primes.map(|prime| (root(prime).fract() * 4294967296.0) as u32).collect()
}

fn sha256(message: &[u8]) -> [u8; 32] {
    let rounds = root_words(|prime| f64::from(prime).cbrt());
    let mut state: Vec<u32> = root_words(|prime| f64::from(prime).sqrt())[..8].to_vec();
    let mut padded = message.to_vec();
    padded.push(0x80);
    while padded.len() % 64 != 56 {
        padded.push(0);
    }
    padded.extend_from_slice(&(message.len() as u64 * 8).to_be_bytes());
    for block in padded.chunks(64) {
        compress(&mut state, &schedule(block), &rounds);
    }
    let mut digest = [0; 32];
    for (place, word) in digest.chunks_mut(4).zip(&state) {
        place.copy_from_slice(&word.to_be_bytes());
    }
    digest
}

fn schedule(block: &[u8]) -> Vec<u32> {
    let mut words: Vec<u32> = block
        .chunks(4)
        .map(|four| u32::from_be_bytes([four[0], four[1], four[2], four[3]]))
        .collect();
    for i in 16..64 {
        let (x, y) = (words[i - 15], words[i - 2]);
        let s0 = x.rotate_right(7) ^ x.rotate_right(18) ^ (x >> 3);
        let s1 = y.rotate_right(17) ^ y.rotate_right(19) ^ (y >> 10);
        let sum = words[i - 16].wrapping_add(s0).wrapping_add(words[i - 7]);
        words.push(sum.wrapping_add(s1));
    }
    words
}

fn compress(state: &mut [u32], words: &[u32], rounds: &[u32]) {
    let mut v = state.to_vec();
    for (word, constant) in words.iter().zip(rounds) {
        let s1 = v[4].rotate_right(6) ^ v[4].rotate_right(11) ^ v[4].rotate_right(25);
        let choice = (v[4] & v[5]) ^ (!v[4] & v[6]);
        let first =
            v[7].wrapping_add(s1).wrapping_add(choice).wrapping_add(*constant).wrapping_add(*word);
        let s0 = v[0].rotate_right(2) ^ v[0].rotate_right(13) ^ v[0].rotate_right(22);
        let majority = (v[0] & v[1]) ^ (v[0] & v[2]) ^ (v[1] & v[2]);
        v.rotate_right(1);
        v[4] = v[4].wrapping_add(first);
        v[0] = first.wrapping_add(s0).wrapping_add(majority);
    }
    for (total, word) in state.iter_mut().zip(v) {
        *total = total.wrapping_add(word);
    }
}
