//! The numbers that refuse a call: a second definition, written from document 01's table, from the
//! sentence below it that gives their order, and from document 02's K3 and K6. It asks neither the
//! library nor the oracle.

/// The number that refuses a call of `audio_frame_head` whatever the head is: 7, then 12.
pub fn of_call(code: u32, out_len: usize) -> Option<u32> {
    first(&[(7, code > 2), (12, out_len < 24)])
}

/// The number that refuses a head by its syntax code, or `None` where the head must read.
pub fn of_head(code: u32, head: &[u8]) -> Option<u32> {
    match code {
        0 => ac3(head),
        1 => mpeg(head),
        2 => adts(head),
        _ => Some(7),
    }
}

/// AC-3 and E-AC-3: 1, 2, 3, 4, then 1 for a seventh byte missing in AC-3. In E-AC-3 two codes are
/// reserved: strmtyp 3, K6, and fscod2 3.
fn ac3(head: &[u8]) -> Option<u32> {
    if head.len() < 6 {
        return Some(1);
    }
    let fscod = field(head, 32, 2);
    let bsid = field(head, 40, 5);
    let is_ac3 = bsid <= 8;
    let reserved = if is_ac3 {
        let frmsizecod = field(head, 34, 6);
        fscod == 3 || frmsizecod >= 38
    } else {
        let (strmtyp, fscod2) = (field(head, 16, 2), field(head, 34, 2));
        strmtyp == 3 || fscod == 3 && fscod2 == 3
    };
    first(&[
        (2, field(head, 0, 16) != 0x0B77),
        (3, bsid == 9 || bsid == 10 || bsid > 16),
        (4, reserved),
        (1, is_ac3 && head.len() < 7),
    ])
}

/// MPEG audio: 1, 2, 3, 5, 4.
fn mpeg(head: &[u8]) -> Option<u32> {
    if head.len() < 4 {
        return Some(1);
    }
    let layer_code = field(head, 13, 2);
    let bit_rate_index = field(head, 16, 4);
    let rate_code = field(head, 20, 2);
    first(&[
        (2, field(head, 0, 12) != 0xFFF),
        (3, layer_code == 0),
        (5, bit_rate_index == 0 || bit_rate_index == 15),
        (4, rate_code == 3),
    ])
}

/// ADTS: 1, 2, 3, 4, 6.
fn adts(head: &[u8]) -> Option<u32> {
    if head.len() < 7 {
        return Some(1);
    }
    let layer = field(head, 13, 2);
    let rate_code = field(head, 18, 4);
    let frame_length = field(head, 30, 13);
    first(&[
        (2, field(head, 0, 12) != 0xFFF),
        (3, layer != 0),
        (4, rate_code >= 12),
        (6, frame_length < adts_header_len(head)),
    ])
}

/// The bytes of an ADTS head, K3: 7 without CRC. With it two more for the CRC, and two for the position
/// of each raw block after the first, which 13818-7 puts before it.
pub fn adts_header_len(head: &[u8]) -> u64 {
    let has_crc = field(head, 15, 1) == 0;
    let further_blocks = field(head, 54, 2);
    if has_crc {
        9 + 2 * further_blocks
    } else {
        7
    }
}

/// The number of the first ground that holds.
fn first(grounds: &[(u32, bool)]) -> Option<u32> {
    let found = grounds.iter().find(|(_, holds)| *holds);
    found.map(|(number, _)| *number)
}

/// The field of `width` bits that begins `at` bits into the head; bits past its end count as 0.
fn field(head: &[u8], at: u32, width: u32) -> u64 {
    let mut start = [0; 8];
    let len = head.len().min(8);
    start[..len].copy_from_slice(&head[..len]);
    (u64::from_be_bytes(start) << at) >> (64 - width)
}
