// A plain table decoder for rs16 in ordinary Rust, for comparison of speed: tables for the field's products, syndromes with the octet
// loop outside and the root loop inside, Berlekamp-Massey, a search for roots place by place, Forney.
use std::sync::OnceLock;

// no codeword within reach
const REFUSED: usize = 109;

struct Tables {
    exp: [u8; 512],
    log: [usize; 256],
    element: [u8; 256],
    octet: [u8; 256],
    roots: [usize; 32],
}

fn tables() -> &'static Tables {
    static TABLES: OnceLock<Tables> = OnceLock::new();
    TABLES.get_or_init(|| {
        let basis = [0x8D, 0xEF, 0xEC, 0x86, 0xFA, 0x99, 0xAF, 0x7B];
        let mut t = Tables { exp: [0; 512], log: [0; 256], element: [0; 256], octet: [0; 256], roots: [0; 32] };
        let mut x = 1usize;
        for i in 0..255 {
            t.exp[i] = x as u8;
            t.exp[i + 255] = x as u8;
            t.log[x] = i;
            x <<= 1;
            if x & 256 != 0 {
                x ^= 0x187;
            }
        }
        for a in 0..256usize {
            let mut octet = 0u8;
            for (digit, b) in basis.iter().enumerate() {
                if a >> (7 - digit) & 1 == 1 {
                    octet ^= b;
                }
            }
            t.octet[a] = octet;
            t.element[octet as usize] = a as u8;
        }
        for i in 0..32 {
            t.roots[i] = 11 * (112 + i) % 255;
        }
        t
    })
}

fn mul(t: &Tables, a: u8, b: u8) -> u8 {
    if a == 0 || b == 0 { 0 } else { t.exp[t.log[a as usize] + t.log[b as usize]] }
}

fn syndromes(t: &Tables, word: &[u8; 255]) -> [u8; 32] {
    let mut s = [0u8; 32];
    for octet in word {
        let e = t.element[*octet as usize];
        for (value, root) in s.iter_mut().zip(t.roots.iter()) {
            *value = if *value == 0 { e } else { t.exp[t.log[*value as usize] + root] ^ e };
        }
    }
    s
}

fn locator(t: &Tables, s: &[u8; 32]) -> ([u8; 33], usize) {
    let (mut c, mut b) = ([0u8; 33], [0u8; 33]);
    c[0] = 1;
    b[0] = 1;
    let (mut length, mut m, mut last) = (0usize, 1usize, 1u8);
    for n in 0..32 {
        let mut d = s[n];
        for i in 1..=length {
            d ^= mul(t, c[i], s[n - i]);
        }
        if d == 0 {
            m += 1;
            continue;
        }
        let kept = c;
        let factor = t.exp[t.log[d as usize] + 255 - t.log[last as usize]];
        for i in 0..33 - m {
            c[i + m] ^= mul(t, factor, b[i]);
        }
        if 2 * length <= n {
            length = n + 1 - length;
            b = kept;
            last = d;
            m = 1;
        } else {
            m += 1;
        }
    }
    (c, length)
}

/// Mends word `word` of a row; the octets altered, or 109.
///
/// # Safety
/// `row` points at `length` octets, of which there are 255 * depth.
#[unsafe(no_mangle)]
pub unsafe extern "C" fn plain_mend_word(row: *mut u8, length: usize, depth: usize, word: usize) -> usize {
    let row = unsafe { std::slice::from_raw_parts_mut(row, length) };
    let t = tables();
    let mut octets = [0u8; 255];
    for (j, octet) in octets.iter_mut().enumerate() {
        *octet = row[j * depth + word];
    }
    let s = syndromes(t, &octets);
    if s.iter().all(|v| *v == 0) {
        return 0;
    }
    let (c, length) = locator(t, &s);
    if length > 16 {
        return REFUSED;
    }
    let mut omega = [0u8; 16];
    for n in 0..length {
        for i in 0..=n {
            omega[n] ^= mul(t, c[i], s[n - i]);
        }
    }
    let mut altered = 0;
    let mut places = [(0usize, 0u8); 16];
    for k in 0..255usize {
        let inverse = (255 - 11 * k % 255) % 255;
        let mut value = 0u8;
        for i in (0..=length).rev() {
            value = if value == 0 { c[i] } else { t.exp[t.log[value as usize] + inverse] ^ c[i] };
        }
        if value != 0 {
            continue;
        }
        let (mut slope, mut top) = (0u8, 0u8);
        for i in (1..=length).step_by(2) {
            slope ^= mul(t, c[i], t.exp[inverse * (i - 1) % 255]);
        }
        for n in (0..length).rev() {
            top = if top == 0 { omega[n] } else { t.exp[t.log[top as usize] + inverse] ^ omega[n] };
        }
        if slope == 0 || top == 0 || altered == 16 {
            return REFUSED;
        }
        let e = (t.log[top as usize] + 255 - t.log[slope as usize] + 11 * k + 112 * inverse) % 255;
        places[altered] = (254 - k, t.octet[t.exp[e] as usize]);
        altered += 1;
    }
    if altered != length {
        return REFUSED;
    }
    for (place, change) in &places[..altered] {
        row[place * depth + word] ^= change;
    }
    altered
}
