//! Writes pixels as PNG, in stored blocks: nothing is compressed.
use crate::labels::Colour;

/// The file of a square picture of this side.
pub fn write(pixels: &[Colour], side: usize) -> Vec<u8> {
    let length = (side as u32).to_be_bytes();
    let head = [&length[..], &length, &[8, 2, 0, 0, 0]].concat();
    let rows: Vec<u8> = pixels.chunks(side).flat_map(|row| [&[0][..], row.as_flattened()].concat()).collect();
    let mut file = b"\x89PNG\r\n\x1a\n".to_vec();
    for (name, data) in [(b"IHDR", head), (b"IDAT", stored(&rows)), (b"IEND", vec![])] {
        file.extend(chunk(name, &data));
    }
    file
}

/// A chunk: its length, its name, its data, and the checksum of name and data.
fn chunk(name: &[u8; 4], data: &[u8]) -> Vec<u8> {
    let named = [name, data].concat();
    [&(data.len() as u32).to_be_bytes()[..], &named, &crc(&named).to_be_bytes()].concat()
}

/// Data as a zlib stream of stored blocks, each of at most 65535 bytes.
fn stored(data: &[u8]) -> Vec<u8> {
    let mut stream = vec![0x78, 0x01];
    let blocks = data.chunks(65535);
    let last = blocks.len().saturating_sub(1);
    for (i, block) in blocks.enumerate() {
        let length = block.len() as u16;
        stream.push(u8::from(i == last));
        stream.extend(length.to_le_bytes());
        stream.extend((!length).to_le_bytes());
        stream.extend(block);
    }
    stream.extend(adler(data).to_be_bytes());
    stream
}

/// The checksum of a chunk: CRC-32.
fn crc(data: &[u8]) -> u32 {
    let byte = |crc: u32, &byte: &u8| {
        (0..8).fold(crc ^ u32::from(byte), |c, _| if c & 1 == 1 { (c >> 1) ^ 0xedb8_8320 } else { c >> 1 })
    };
    !data.iter().fold(u32::MAX, byte)
}

/// The checksum of a zlib stream: Adler-32.
fn adler(data: &[u8]) -> u32 {
    let (a, b) = data.iter().fold((1_u32, 0_u32), |(a, b), &byte| {
        let a = (a + u32::from(byte)) % 65521;
        (a, (a + b) % 65521)
    });
    b << 16 | a
}

#[cfg(test)]
mod tests {
    use super::*;

    #[test]
    fn checksums_are_those_of_the_standards() {
        assert_eq!(crc(b"123456789"), 0xcbf4_3926);
        assert_eq!(crc(b"IEND"), 0xae42_6082);
        assert_eq!(adler(b"Wikipedia"), 0x11e6_0398);
    }

    #[test]
    fn a_long_stream_has_several_blocks() {
        let data = vec![7; 70_000];
        let stream = stored(&data);
        assert_eq!(stream.len(), 2 + 2 * 5 + data.len() + 4);
        assert_eq!(stream[2..7], [0, 0xff, 0xff, 0, 0]);
        assert_eq!(stream[65542], 1);
    }

    #[test]
    fn the_head_tells_the_size() {
        let file = write(&[[1, 2, 3]; 4], 2);
        assert_eq!(file[..8], *b"\x89PNG\r\n\x1a\n");
        assert_eq!(file[16..26], [0, 0, 0, 2, 0, 0, 0, 2, 8, 2]);
    }
}
