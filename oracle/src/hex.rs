//! Byte strings as text: lower-case hexadecimal, `-` for the empty string.

/// The largest byte string a repeat group may make; a guard against a slip in a script.
const LONGEST: usize = 1 << 28;

/// Reads a byte string: `-`, or pairs of digits and repeat groups `(HEX*COUNT)`.
pub fn parse(text: &str) -> Option<Vec<u8>> {
    match text {
        "-" => Some(Vec::new()),
        "" => None,
        _ => {
            let mut bytes = Vec::with_capacity(text.len() / 2);
            parse_run(text, &mut bytes)?;
            Some(bytes)
        }
    }
}

/// Reads exactly `N` bytes.
pub fn parse_array<const N: usize>(text: &str) -> Option<[u8; N]> {
    parse(text)?.try_into().ok()
}

/// Reads a byte string that may be empty and has no `-`, and appends it to `bytes`.
pub fn parse_run(text: &str, bytes: &mut Vec<u8>) -> Option<()> {
    let mut rest = text;

    while let Some(start) = rest.find('(') {
        parse_digits(&rest[..start], bytes)?;

        let (group, after) = rest[start + 1..].split_once(')')?;
        let (unit, count) = group.split_once('*')?;
        let unit = parse(unit)?;
        let count: usize = count.parse().ok()?;

        if unit.len().checked_mul(count)? > LONGEST {
            return None;
        }

        for _ in 0..count {
            bytes.extend_from_slice(&unit);
        }
        rest = after;
    }

    parse_digits(rest, bytes)
}

fn parse_digits(text: &str, bytes: &mut Vec<u8>) -> Option<()> {
    let pairs = text.as_bytes().chunks_exact(2);

    if !pairs.remainder().is_empty() {
        return None;
    }

    for pair in pairs {
        let high = VALUES[usize::from(pair[0])];
        let low = VALUES[usize::from(pair[1])];

        // The mark of a character that is no digit has bits above those of a digit.
        if (high | low) & 0xF0 != 0 {
            return None;
        }
        bytes.push(high << 4 | low);
    }

    Some(())
}

/// Appends `bytes` as hexadecimal, `-` if there are none.
pub fn push(out: &mut Vec<u8>, bytes: &[u8]) {
    if bytes.is_empty() {
        out.push(b'-');
    }

    out.reserve(bytes.len() * 2);
    for byte in bytes {
        out.extend_from_slice(&DIGITS[usize::from(*byte)]);
    }
}

/// The value of each character that is a digit, 0xFF for any other.
const VALUES: [u8; 256] = {
    let mut values = [0xFF; 256];
    let mut digit = 0;

    while digit < 16 {
        values["0123456789abcdef".as_bytes()[digit] as usize] = digit as u8;
        values["0123456789ABCDEF".as_bytes()[digit] as usize] = digit as u8;
        digit += 1;
    }
    values
};

/// The two digits of each byte.
const DIGITS: [[u8; 2]; 256] = {
    let digits = b"0123456789abcdef";
    let mut pairs = [[0; 2]; 256];
    let mut byte = 0;

    while byte < 256 {
        pairs[byte] = [digits[byte >> 4], digits[byte & 15]];
        byte += 1;
    }
    pairs
};
