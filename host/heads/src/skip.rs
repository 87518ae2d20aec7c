//! Where a head can begin: a second definition, written from document 01's numbers 2 and 7. It asks
//! neither the library nor the oracle.

/// The first place of `bytes` that has a sync word, or the last byte's place where there is none;
/// 0 for no bytes. The error is the number that refuses the code.
pub fn place(code: u32, bytes: &[u8]) -> Result<usize, u32> {
    let is_sync_word: fn(&[u8]) -> bool = match code {
        0 => |pair| pair == [0x0B, 0x77],
        1 | 2 => |pair| pair[0] == 0xFF && pair[1] >= 0xF0,
        _ => return Err(7),
    };
    let found = bytes.windows(2).position(is_sync_word);
    Ok(found.unwrap_or(bytes.len().saturating_sub(1)))
}
