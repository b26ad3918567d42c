//! SHA-256 (FIPS 180-4), so that the compiled files can be checked with
//! `sha256sum` and without a crate.

pub fn hex(bytes: &[u8]) -> String {
    // The constants are the first 32 bits of the fractions of the primes' roots.
    let primes: Vec<f64> = (2..312u32)
        .filter(|n| (2..*n).all(|d| n % d != 0))
        .map(f64::from)
        .collect();
    let bits = |x: f64| (x.fract() * 4294967296.0) as u32;
    let k: Vec<u32> = primes.iter().map(|p| bits(p.cbrt())).collect();
    let mut h: Vec<u32> = primes[..8].iter().map(|p| bits(p.sqrt())).collect();

    let mut text = bytes.to_vec();
    text.push(0x80);
    while text.len() % 64 != 56 {
        text.push(0);
    }
    text.extend((bytes.len() as u64 * 8).to_be_bytes());

    for block in text.chunks(64) {
        let mut w: Vec<u32> = block
            .chunks(4)
            .map(|b| u32::from_be_bytes([b[0], b[1], b[2], b[3]]))
            .collect();
        for i in 16..64 {
            let (a, b) = (w[i - 15], w[i - 2]);
            let s0 = a.rotate_right(7) ^ a.rotate_right(18) ^ (a >> 3);
            let s1 = b.rotate_right(17) ^ b.rotate_right(19) ^ (b >> 10);
            w.push(
                w[i - 16]
                    .wrapping_add(s0)
                    .wrapping_add(w[i - 7])
                    .wrapping_add(s1),
            );
        }
        let mut v = h.clone();
        for i in 0..64 {
            let (a, e) = (v[0], v[4]);
            let s1 = e.rotate_right(6) ^ e.rotate_right(11) ^ e.rotate_right(25);
            let choice = (e & v[5]) ^ (!e & v[6]);
            let one = [s1, choice, k[i], w[i]]
                .iter()
                .fold(v[7], |s, x| s.wrapping_add(*x));
            let s0 = a.rotate_right(2) ^ a.rotate_right(13) ^ a.rotate_right(22);
            let two = s0.wrapping_add((a & v[1]) ^ (a & v[2]) ^ (v[1] & v[2]));
            v.rotate_right(1);
            v[4] = v[4].wrapping_add(one);
            v[0] = one.wrapping_add(two);
        }
        for (old, new) in h.iter_mut().zip(v) {
            *old = old.wrapping_add(new);
        }
    }
    h.iter().map(|x| format!("{x:08x}")).collect()
}
