//! Bit cursors: fields of any width up to 32 bits, most significant bit first
//! and unpadded, one bit at a time.

/// Reads fields from lent bytes. Bits past the end read as 0; the image
/// readers compare lengths before they rely on what they took.
pub struct BitReader<'a> {
    bytes: &'a [u8],
    position: usize,
}

impl<'a> BitReader<'a> {
    pub fn new(bytes: &'a [u8]) -> BitReader<'a> {
        BitReader { bytes, position: 0 }
    }

    fn bit(&mut self) -> u32 {
        let byte = self.bytes.get(self.position / 8).copied().unwrap_or(0);
        let bits_below = 7 - self.position % 8;
        self.position += 1;
        u32::from(byte) / 2u32.pow(bits_below as u32) % 2
    }

    pub fn take(&mut self, width: usize) -> u32 {
        let mut value = 0;
        for _ in 0..width {
            value = value * 2 + self.bit();
        }
        value
    }

    pub fn take_flag(&mut self) -> bool {
        self.bit() == 1
    }
}

/// Collects fields bit by bit and packs them into bytes at the end.
#[derive(Default)]
pub struct BitWriter {
    bits: Vec<bool>,
}

impl BitWriter {
    pub fn new() -> BitWriter {
        BitWriter::default()
    }

    /// A value too large for its field loses its upper bits. No judged value
    /// is, but the generator writes images of values that were not judged.
    pub fn put(&mut self, value: u32, width: u32) {
        for bits_below in (0..width).rev() {
            self.bits.push(value / 2u32.pow(bits_below) % 2 == 1);
        }
    }

    pub fn put_flag(&mut self, flag: bool) {
        self.bits.push(flag);
    }

    /// A started last byte is filled up with zero bits.
    pub fn into_bytes(self) -> Vec<u8> {
        self.bits
            .chunks(8)
            .map(|chunk| {
                let mut byte = 0;
                for place in 0..8 {
                    let bit = chunk.get(place).copied().unwrap_or(false);
                    byte = byte * 2 + u8::from(bit);
                }
                byte
            })
            .collect()
    }
}

#[cfg(test)]
mod tests {
    use super::*;

    #[test]
    fn fields_of_every_width_come_back() {
        for width in 1..=32u32 {
            let largest = (2u64.pow(width) - 1) as u32;
            for value in [0, 1, largest / 3, largest - largest / 2, largest] {
                let mut writer = BitWriter::new();
                writer.put(5, 3);
                writer.put(value, width);
                writer.put_flag(true);
                let bytes = writer.into_bytes();
                let mut reader = BitReader::new(&bytes);
                assert_eq!(reader.take(3), 5);
                assert_eq!(reader.take(width as usize), value);
                assert!(reader.take_flag());
            }
        }
    }

    #[test]
    fn the_first_bit_is_the_most_significant() {
        let mut reader = BitReader::new(&[0x80, 0x01]);
        assert!(reader.take_flag());
        assert_eq!(reader.take(14), 0);
        assert!(reader.take_flag());
        assert_eq!(reader.take(5), 0);
    }
}
