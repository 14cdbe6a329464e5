//! Names that collide: labels of eight letters whose 32-bit hashes, as the hashed maps of the kit take them without a key, agree in the low 12
//! bits and in the eight that a table compares first. Such names meet in every table of up to 4,096 groups.

const M: u64 = 0x9e37_79b9_7f4a_7c15;

fn fold(a: u64, b: u64) -> u64 {
    let p = a as u128 * b as u128;
    p as u64 ^ (p >> 64) as u64
}

fn hash(x: u64) -> u32 {
    let name = fold(0x243f_6a88_85a3_08d3 ^ x, M ^ 16);
    let end = fold(name ^ 0xff_ffff, M ^ 2);
    (end ^ (end >> 32)) as u32
}

/// The next of the 26 ^ 8 labels, in the order of a counter.
fn next(digits: &mut [u8; 8]) {
    for d in digits {
        *d += 1;
        if *d < 26 {
            return;
        }
        *d = 0;
    }
}

/// Prints so many of them, a line each.
pub fn print(wanted: usize) {
    let mut digits = [0u8; 8];
    let mut found = 0;
    while found < wanted {
        let text = digits.map(|d| b'a' + d);
        if hash(u64::from_le_bytes(text)) & 0xff00_0fff == 0x5500_0123 {
            println!("{}", String::from_utf8_lossy(&text));
            found += 1;
        }
        next(&mut digits);
    }
}
