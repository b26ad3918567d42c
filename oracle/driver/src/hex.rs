//! Hex in capitals. All NaNs are one value and are written 7FC00000.

fn digit(c: u8) -> Option<u8> {
    match c {
        b'0'..=b'9' => Some(c - b'0'),
        b'A'..=b'F' => Some(c - b'A' + 10),
        _ => None,
    }
}

pub fn bytes(text: &str) -> Option<Vec<u8>> {
    let pairs = text.as_bytes().chunks(2);
    pairs
        .map(|p| match p {
            [high, low] => Some(digit(*high)? << 4 | digit(*low)?),
            _ => None,
        })
        .collect()
}

pub fn float(text: &str) -> Option<f32> {
    let four: [u8; 4] = bytes(text)?.try_into().ok()?;
    Some(f32::from_be_bytes(four))
}

pub fn write(bytes: &[u8]) -> String {
    let digits = bytes.iter().flat_map(|b| [b >> 4, b & 15]);
    digits
        .map(|d| b"0123456789ABCDEF"[d as usize] as char)
        .collect()
}

pub fn write_float(x: f32) -> String {
    match x.is_nan() {
        true => "7FC00000".into(),
        false => format!("{:08X}", x.to_bits()),
    }
}

pub fn write_rows(rows: &[[u8; 16]]) -> String {
    rows.iter().map(|r| write(r)).collect()
}
