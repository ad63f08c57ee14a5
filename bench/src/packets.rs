//! A packet of tag items for a full frame of 64 streams.

/// The bytes of an item: its name, its length in bits, its value.
fn item(name: [u8; 4], value: &[u8]) -> Vec<u8> {
    let bits = 8 * value.len() as u32;
    [&name, &bits.to_be_bytes(), value].concat()
}

/// The items of a frame with a FIC in mode III, no timestamp and no reserved bits: management, then its streams.
pub fn packet(frame: &[u8]) -> Vec<u8> {
    let streams = usize::from(frame[5] & 0x7F);
    let mnsc = 8 + 4 * streams;
    let mut at = mnsc + 4;
    let mut header = vec![0x40, frame[4], frame[0], 3 << 6 | frame[6] >> 5 << 3];
    header.extend(&frame[mnsc..mnsc + 2]);
    header.extend(&frame[at..at + 128]);
    at += 128;
    let mut packet = item(*b"deti", &header);
    for (n, entry) in frame[8..mnsc].chunks(4).enumerate() {
        let len = 8 * (usize::from(entry[2] & 3) << 8 | usize::from(entry[3]));
        let value = [&[entry[0], entry[1], entry[2] & !3], &frame[at..at + len]].concat();
        packet.extend(item([b'e', b's', b't', n as u8 + 1], &value));
        at += len;
    }
    packet
}
