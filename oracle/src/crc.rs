//! CRC-32 as zlib has it, eight bytes at a step since stores are long.

const STEP: usize = 8;

/// `TABLES[n][b]` is what byte `b` does to the sum when `n` more bytes of the step follow it.
static TABLES: [[u32; 256]; STEP] = tables();

pub fn crc32(bytes: &[u8]) -> u32 {
    let mut steps = bytes.chunks_exact(STEP);
    let mut sum = u32::MAX;
    for step in &mut steps {
        let mut mixed: [u8; STEP] = step.try_into().expect("a whole step");
        for (byte, of_sum) in mixed.iter_mut().zip(sum.to_le_bytes()) {
            *byte ^= of_sum;
        }
        sum = 0;
        for (place, byte) in mixed.iter().enumerate() {
            sum ^= TABLES[STEP - 1 - place][*byte as usize];
        }
    }
    for byte in steps.remainder() {
        sum = sum >> 8 ^ TABLES[0][(sum as u8 ^ byte) as usize];
    }
    !sum
}

const fn tables() -> [[u32; 256]; STEP] {
    const POLYNOMIAL: u32 = 0xedb8_8320;
    let mut tables = [[0; 256]; STEP];
    let mut byte = 0;
    while byte < 256 {
        let mut sum = byte as u32;
        let mut bit = 0;
        while bit < 8 {
            sum = if sum & 1 == 1 { sum >> 1 ^ POLYNOMIAL } else { sum >> 1 };
            bit += 1;
        }
        tables[0][byte] = sum;
        byte += 1;
    }
    let mut table = 1;
    while table < STEP {
        let mut byte = 0;
        while byte < 256 {
            let before = tables[table - 1][byte];
            tables[table][byte] = before >> 8 ^ tables[0][(before & 255) as usize];
            byte += 1;
        }
        table += 1;
    }
    tables
}

#[cfg(test)]
mod tests {
    use super::crc32;

    #[test]
    fn check_value() {
        assert_eq!(crc32(b"123456789"), 0xcbf4_3926);
        assert_eq!(crc32(b""), 0);
    }
}
