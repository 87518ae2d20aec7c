//! Prints the length and rate of the ADTS frame on standard input, or the number of its refusal.
use std::io::Read;

#[link(name = "heads", kind = "static")]
extern "C" {
    fn audio_frame_head(code: u32, head: *const u8, len: usize, out: *mut u8, room: usize) -> u32;
}

fn main() {
    let mut head = Vec::new();
    std::io::stdin().take(7).read_to_end(&mut head).expect("standard input can be read");
    // Kind, length, samples, rate, channels, bit rate: little-endian, as x86-64 is.
    let mut record = [0u32; 6];
    let out = record.as_mut_ptr().cast();
    // SAFETY: both pointers have the bytes that the lengths say, and no byte is in both parts.
    match unsafe { audio_frame_head(2, head.as_ptr(), head.len(), out, 24) } {
        0 => println!("{} bytes, {} Hz", record[1], record[3]),
        refusal => println!("refused with number {refusal}"),
    }
}
