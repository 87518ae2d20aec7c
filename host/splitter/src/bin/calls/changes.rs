//! What the change requests changed of the splitter's answers, written by hand as lines of the list
//! of calls: each with the answer that the unchanged Rust gives, and with the one that is due now.

use oracle::domain::Asked::{self, FirstPayload, Flush, Search, SecondHead};
use oracle::domain::Left;
use oracle::domain::Request::{self, K3, K6};

/// A line, the unchanged module's answer where it is another one, and the answer now. The unchanged
/// module knows no mark: where that is all that differs, there is one answer.
pub type Turn = (&'static str, Option<&'static str>, &'static str);

/// It begins with a line that sets the state and all bytes that are pending.
pub struct Changed {
    pub name: &'static str,
    /// How it leaves the domain of equality; a case that does not is answered alike by both.
    pub left: Option<Left>,
    /// Where that is worth a word: for each line whether it is inside, `i`, or outside, `o`.
    pub sides: Option<&'static str>,
    pub turns: &'static [Turn],
}

/// A case that leaves the domain, and one that does not.
const fn case(
    name: &'static str,
    (request, asked): (Request, Asked),
    turns: &'static [Turn],
) -> Changed {
    Changed { name, left: Some(Left::Head(request, asked)), sides: None, turns }
}

const fn inside(name: &'static str, turns: &'static [Turn]) -> Changed {
    Changed { name, left: None, sides: None, turns }
}

const NEW_0: Turn = ("n 0", None, "o 0/0/-/-/0/0 [] . . =");
pub const NEW_2: Turn = ("n 2", None, "o 2/0/-/-/0/0 [] . . =");

/// Document 01's F at 0, by which a new splitter is locked.
#[rustfmt::skip]
pub const LOCKING_F: Turn =
    ("p 0 8190 7 8 FFF1508000E000", None, "t,1,7 2/0/-/0:1:1024:44100:0/0/1 [7,6,1024,44100,2,0,1,0] FFF1508000E000 . =");

/// K3: with CRC and n further blocks a head has 9 + 2 × n bytes, and a shorter frame is refused.
///
/// X is FF F0 50 80 01 20 01 FF F1. Byte 1 ends in 0: CRC. frame_length is 8 × 01 and the top three
/// bits of 20, 001: 9. Byte 6 ends in 01: one further block. So its head has 11 bytes, and X is none;
/// the Rust asks for 9 whatever n is, and gives X: 9 bytes, 2048 samples.
#[rustfmt::skip]
pub const ADTS_HEADS: [Changed; 11] = [
    // The Rust: X is a frame, k = 1 from the anchor: 2048 * 90000 / 44100 = 4179.
    // Now: FF F0 50 80 01 20 01 is no head, F0 50 80 01 20 01 FF and 50 80 01 20 01 FF F1 are none
    // either: a byte each, 3. The six that are left, 80 01 20 01 FF F1, are fewer than a head. They
    // begin in the payload, and are stamped by the anchor's geometry, k = 1: 1024 * 90000 / 44100 =
    // 2089.
    case("K3: X is searched over by a locked splitter", (K3, Search), &[
        NEW_2,
        LOCKING_F,
        ("p - 8190 9 8 FFF05080012001FFF1",
            Some("t,1,9 2/0/-/0:2:2048:44100:0/0/1 [9,6,2048,44100,2,0,1,4179] FFF05080012001FFF1 . ="),
            "t,0,0 2/6/2089/0:2:1024:44100:0/3/1 [] . 80012001FFF1 ="),
    ]),
    // The Rust: X at 4179, then F with k = 2 at 2 * 1024 * 90000 / 44100 = 4179 and with k = 3 at
    // 6269.
    // Now: all nine bytes of X are lost. At its eighth FF F1 FF F1 .. has rate index 15, and at its
    // ninth is no sync word. F F have k = 1 and 2: 2089 and 4179.
    case("K3: X before F F costs its nine bytes", (K3, Search), &[
        NEW_2,
        LOCKING_F,
        ("p - 8190 23 24 FFF05080012001FFF1 FFF1508000E000*2",
            Some("t,3,23 2/0/-/0:4:1024:44100:0/0/1 [9,6,2048,44100,2,0,1,4179;7,6,1024,44100,2,0,1,4179;7,6,1024,44100,2,0,1,6269] "),
            "t,2,14 2/0/-/0:3:1024:44100:0/9/1 [7,6,1024,44100,2,0,1,2089;7,6,1024,44100,2,0,1,4179] FFF1508000E000FFF1508000E000 . ="),
    ]),
    // The Rust: X is taken and given at 5; F behind it has k = 1: 5 + 2089.
    // Now: the payload's head does not read, and the splitter is unlocked with nothing pending: not
    // taken, and 5 goes with it. F has no anchor, and so no stamp.
    case("K3: X is not taken by a new splitter", (K3, FirstPayload), &[
        NEW_2,
        ("p 5 8190 9 8 FFF05080012001FFF1",
            Some("t,1,9 2/0/-/5:1:2048:44100:0/0/1 [9,6,2048,44100,2,0,1,5] FFF05080012001FFF1 . ="),
            "x 2/0/-/-/0/0 [] . . ="),
        ("p - 8190 7 8 FFF1508000E000",
            Some("t,1,7 2/0/-/5:2:1024:44100:0/0/1 [7,6,1024,44100,2,0,1,2094] FFF1508000E000 . ="),
            "t,1,7 2/0/-/-/0/1 [7,6,1024,44100,2,0,0,0] FFF1508000E000 . ="),
    ]),
    // The Rust: behind F stand nine bytes that read, so F is given at 1000, and X at 1000 + 4179.
    // Then F with k = 2: 1000 + 4179.
    // Now: the nine bytes do not read, so F costs one byte; F1, 50, 80, 00, E0 and 00 begin no head,
    // nor do FF, F0 and 50 of X: 10 in all. The six that are left take 1000, with no rate yet. Then
    // 13 bytes: 80, 01, 20, 01, FF (FF F1 FF: rate index 15) and F1 begin no head: 6 more. F begins
    // in the payload, k = 1 by its own geometry: 1000 + 2089.
    case("K3: F before X costs one byte, and the search goes on", (K3, SecondHead), &[
        NEW_2,
        ("p 1000 8190 16 16 FFF1508000E000 FFF05080012001FFF1",
            Some("t,2,16 2/0/-/1000:2:2048:44100:0/0/1 [7,6,1024,44100,2,0,1,1000;9,6,2048,44100,2,0,1,5179] FFF1508000E000FFF05080012001FFF1 . ="),
            "t,0,0 2/6/1000/1000:1:0:0:1/10/0 [] . 80012001FFF1 ="),
        ("p - 8190 13 8 FFF1508000E000",
            Some("t,1,7 2/0/-/1000:3:1024:44100:0/0/1 [7,6,1024,44100,2,0,1,5179] FFF1508000E000 . ="),
            "t,1,7 2/0/-/1000:2:1024:44100:0/16/1 [7,6,1024,44100,2,0,1,3089] FFF1508000E000 . ="),
    ]),
    // F and six bytes of X: fewer than a head, so F is given and they are kept, k = 1: 1000 + 2089.
    // The Rust: the seventh byte makes a head, the ninth ends the frame: X at its stamp, 3089.
    // Now: no head, and the stamp is void; F0 and 50 begin none. The six bytes that are left begin
    // in pending bytes (at 3 of 6), so that they keep the stamp, which is void. In both nothing
    // commences in the payload, and 9000 is lost.
    case("K3: X is no frame when pending bytes are completed to it", (K3, Search), &[
        NEW_2,
        ("p 1000 8190 13 8 FFF1508000E000 FFF050800120", None,
            "t,1,7 2/6/3089/1000:2:1024:44100:0/0/1 [7,6,1024,44100,2,0,1,1000] FFF1508000E000 FFF050800120 ="),
        ("p 9000 8190 9 8 01FFF1",
            Some("t,1,9 2/0/-/1000:2:1024:44100:0/0/1 [9,6,2048,44100,2,0,1,3089] FFF05080012001FFF1 . ="),
            "t,0,0 2/6/-/1000:2:1024:44100:0/3/1 [] . 80012001FFF1 ="),
    ]),
    // The Rust: the pending bytes' head reads: a frame with their stamp, and nothing is pending.
    // Now: it does not read: no frame, and no change. A push of 00 then loses four bytes, until six
    // are left, and the stamp.
    case("K3: X is no frame at flush, and its bytes stay", (K3, Flush), &[
        ("s 2 9 77 - 0 1 FFF05080012001FFF1", None, "o 2/9/77/-/0/1 [] . FFF05080012001FFF1 ="),
        ("f 8190 9 8",
            Some("t,1,9 2/0/-/-/0/1 [9,6,2048,44100,2,0,1,77] FFF05080012001FFF1 . ="),
            "x 2/9/77/-/0/1 [] . FFF05080012001FFF1 ="),
        ("p - 8190 10 8 00",
            Some("t,0,0 2/1/-/-/0/1 [] . 00 ="),
            "t,0,0 2/6/-/-/4/1 [] . 012001FFF100 ="),
    ]),
    // FF F0 50 80 01 C0 03 and seven 00: frame_length 8 + 6 = 14, three further blocks, so that the
    // head would have 15 bytes. The Rust gives it, 4096 samples.
    case("K3: 14 bytes with three further blocks are no frame", (K3, FirstPayload), &[
        NEW_2,
        ("p - 8190 14 16 FFF0508001C003 00*7",
            Some("t,1,14 2/0/-/-/0/1 [14,6,4096,44100,2,0,0,0] FFF0508001C00300000000000000 . ="),
            "x 2/0/-/-/0/0 [] . . ="),
    ]),
    // frame_length 8 + 7 = 15: all of it is head. Both give it.
    inside("K3: 15 bytes with three further blocks are a frame", &[
        NEW_2,
        ("p - 8190 15 16 FFF0508001E003 00*8", None,
            "t,1,15 2/0/-/-/0/1 [15,6,4096,44100,2,0,0,0] FFF0508001E0030000000000000000 . ="),
    ]),
    // frame_length 8 + 3 = 11, one further block: just as long as its head. Both give it, and F with a
    // further block behind it: k = 1, 2048 * 90000 / 44100 = 4179.
    inside("K3: 11 bytes with one further block are a frame", &[
        NEW_2,
        ("p 0 8190 18 16 FFF05080016001 00*4 FFF1508000E001", None,
            "t,2,18 2/0/-/0:2:2048:44100:0/0/1 [11,6,2048,44100,2,0,1,0;7,6,2048,44100,2,0,1,4179] FFF0508001600100000000FFF1508000E001 . ="),
    ]),
    // FF F1 50 80 02 00 00: frame_length 16, no CRC; X stands behind its head, and F behind that. The
    // reader is asked at 0 and 16 alone.
    inside("K3: X inside another frame is never asked about", &[
        NEW_2,
        ("p 0 8190 23 24 FFF15080020000 FFF05080012001FFF1 FFF1508000E000", None,
            "t,2,23 2/0/-/0:2:1024:44100:0/0/1 [16,6,1024,44100,2,0,1,0;7,6,1024,44100,2,0,1,2089] FFF15080020000FFF05080012001FFF1FFF1508000E000 . ="),
    ]),
    // One byte too few is lent for what is pending: the payload is not looked at.
    inside("K3: a refused push asks about no head", &[
        NEW_2,
        ("p 5 8189 9 8 FFF05080012001FFF1", None, "!12 2/0/-/-/0/0 [] . . ="),
        LOCKING_F,
    ]),
];

/// G at 0, by which a new splitter of code 0 is locked.
#[rustfmt::skip]
const LOCKING_G: Turn =
    ("p 0 8190 8 8 0B7700033F800000", None, "t,1,8 0/0/-/0:1:1536:48000:0/0/1 [8,2,1536,48000,6,0,1,0] 0B7700033F800000 . =");

/// K6: an E-AC-3 head with strmtyp 3 is refused.
///
/// G is 0B 77 00 03 3F 80 00 00: strmtyp 0, the top two bits of byte 2; frmsiz 3, so 8 bytes; 1536
/// samples at 48000 Hz, 2880 ticks; bsid 16. T is the same with C0 as byte 2: strmtyp 3. Neither has a
/// sync word but at its front, so that each place behind it is no head.
#[rustfmt::skip]
pub const STREAM_TYPES: [Changed; 15] = [
    // The Rust: T is a frame, k = 1 from the anchor: 2880.
    // Now: T is no head, and costs a byte. The seven that are left are fewer than a head needs. They
    // begin in the payload, and are stamped by the anchor's geometry, k = 1: 2880.
    case("K6: T is searched over by a locked splitter", (K6, Search), &[
        NEW_0,
        LOCKING_G,
        ("p - 8190 8 8 0B77C0033F800000",
            Some("t,1,8 0/0/-/0:2:1536:48000:0/0/1 [8,2,1536,48000,6,0,1,2880] 0B77C0033F800000 . ="),
            "t,0,0 0/7/2880/0:2:1536:48000:0/1/1 [] . 77C0033F800000 ="),
    ]),
    // The Rust: three frames, 2880, 5760 and 8640.
    // Now: T costs its eight bytes, and G G have k = 1 and 2.
    case("K6: T before G G costs its eight bytes", (K6, Search), &[
        NEW_0,
        LOCKING_G,
        ("p - 8190 24 24 0B77C0033F800000 0B7700033F800000*2",
            Some("t,3,24 0/0/-/0:4:1536:48000:0/0/1 [8,2,1536,48000,6,0,1,2880;8,2,1536,48000,6,0,1,5760;8,2,1536,48000,6,0,1,8640] "),
            "t,2,16 0/0/-/0:3:1536:48000:0/8/1 [8,2,1536,48000,6,0,1,2880;8,2,1536,48000,6,0,1,5760] 0B7700033F8000000B7700033F800000 . ="),
    ]),
    // The Rust: T is taken and given at 5; G behind it has k = 1: 5 + 2880.
    // Now: the payload's head does not read, and the splitter is unlocked with nothing pending: not
    // taken, and 5 goes with it. G has no anchor, and so no stamp.
    case("K6: T is not taken by a new splitter", (K6, FirstPayload), &[
        NEW_0,
        ("p 5 8190 8 8 0B77C0033F800000",
            Some("t,1,8 0/0/-/5:1:1536:48000:0/0/1 [8,2,1536,48000,6,0,1,5] 0B77C0033F800000 . ="),
            "x 0/0/-/-/0/0 [] . . ="),
        ("p - 8190 8 8 0B7700033F800000",
            Some("t,1,8 0/0/-/5:2:1536:48000:0/0/1 [8,2,1536,48000,6,0,1,2885] 0B7700033F800000 . ="),
            "t,1,8 0/0/-/-/0/1 [8,2,1536,48000,6,0,0,0] 0B7700033F800000 . ="),
    ]),
    // Six bytes of T: the Rust takes them, since E-AC-3 reads from six, and keeps them, since the search
    // asks for eight; they are the first thing that begins in the payload, and have 5.
    case("K6: six bytes of T are not taken by a new splitter", (K6, FirstPayload), &[
        NEW_0,
        ("p 5 8190 6 8 0B77C0033F80",
            Some("t,0,0 0/6/5/5:1:0:0:0/0/0 [] . 0B77C0033F80 ="),
            "x 0/0/-/-/0/0 [] . . ="),
    ]),
    // The Rust: behind G stand eight bytes that read, so G is given at 1000, and T at 1000 + 2880. Then
    // G with k = 2: 1000 + 5760.
    // Now: the eight bytes do not read, so G costs one byte, its other seven begin no head, and T costs
    // one: 9 in all. The seven that are left take 1000, with no rate yet. Then 15 bytes: the seven begin
    // no head: 16 in all. G begins in the payload, k = 1 by its own geometry: 1000 + 2880.
    case("K6: G before T costs one byte, and the search goes on", (K6, SecondHead), &[
        NEW_0,
        ("p 1000 8190 16 16 0B7700033F800000 0B77C0033F800000",
            Some("t,2,16 0/0/-/1000:2:1536:48000:0/0/1 [8,2,1536,48000,6,0,1,1000;8,2,1536,48000,6,0,1,3880] 0B7700033F8000000B77C0033F800000 . ="),
            "t,0,0 0/7/1000/1000:1:0:0:1/9/0 [] . 77C0033F800000 ="),
        ("p - 8190 15 16 0B7700033F800000",
            Some("t,1,8 0/0/-/1000:3:1536:48000:0/0/1 [8,2,1536,48000,6,0,1,6760] 0B7700033F800000 . ="),
            "t,1,8 0/0/-/1000:2:1536:48000:0/16/1 [8,2,1536,48000,6,0,1,3880] 0B7700033F800000 . ="),
    ]),
    // Byte 3 as 00: T says 2 bytes, fewer than a head needs. The Rust reads it as a second head all the
    // same, and gives G; then T costs a byte, since no frame is so short.
    // Now: it does not read: G costs its eight bytes, and T one.
    case("K6: a second head of type 3 that says two bytes does not read", (K6, SecondHead), &[
        NEW_0,
        ("p 1000 8190 16 16 0B7700033F800000 0B77C0003F800000",
            Some("t,1,8 0/7/3880/1000:2:1536:48000:0/1/1 [8,2,1536,48000,6,0,1,1000] 0B7700033F800000 77C0003F800000 ="),
            "t,0,0 0/7/1000/1000:1:0:0:1/9/0 [] . 77C0003F800000 ="),
    ]),
    // G and seven bytes of T: fewer than a head needs, so G is given and they are kept, k = 1: 3880.
    // The Rust: the eighth byte makes a head and ends the frame: T at its stamp, 3880.
    // Now: no head, and the stamp is void; a byte is lost, and the seven that are left begin in pending
    // bytes, so that they keep the stamp, which is void. In both nothing commences in the payload, and
    // 9000 is lost.
    case("K6: T is no frame when pending bytes are completed to it", (K6, Search), &[
        NEW_0,
        ("p 1000 8190 15 16 0B7700033F800000 0B77C0033F8000", None,
            "t,1,8 0/7/3880/1000:2:1536:48000:0/0/1 [8,2,1536,48000,6,0,1,1000] 0B7700033F800000 0B77C0033F8000 ="),
        ("p 9000 8190 8 8 00",
            Some("t,1,8 0/0/-/1000:2:1536:48000:0/0/1 [8,2,1536,48000,6,0,1,3880] 0B77C0033F800000 . ="),
            "t,0,0 0/7/-/1000:2:1536:48000:0/1/1 [] . 77C0033F800000 ="),
    ]),
    // Byte 3 as 07: T says 16 bytes, of which eight are there. The Rust keeps them as part of a frame,
    // and gives it with the next eight. Now they are searched over: one byte is lost, and the next push
    // loses eight more: 15 bytes are there, and seven are left.
    case("K6: a part of a longer T is not kept as one", (K6, Search), &[
        NEW_0,
        LOCKING_G,
        ("p - 8190 8 8 0B77C0073F800000",
            Some("t,0,0 0/8/2880/0:2:1536:48000:0/0/1 [] . 0B77C0073F800000 ="),
            "t,0,0 0/7/2880/0:2:1536:48000:0/1/1 [] . 77C0073F800000 ="),
        ("p - 8190 16 16 00*8",
            Some("t,1,16 0/0/-/0:2:1536:48000:0/0/1 [16,2,1536,48000,6,0,1,2880] 0B77C0073F8000000000000000000000 . ="),
            "t,0,0 0/7/5760/0:3:1536:48000:0/9/1 [] . 00000000000000 ="),
    ]),
    // The Rust: the pending bytes' head reads: a frame with their stamp, and nothing is pending.
    // Now: it does not read: no frame, and no change. A push of 00 then loses two bytes, until seven are
    // left, and the stamp.
    case("K6: T is no frame at flush, and its bytes stay", (K6, Flush), &[
        ("s 0 8 77 - 0 1 0B77C0033F800000", None, "o 0/8/77/-/0/1 [] . 0B77C0033F800000 ="),
        ("f 8190 8 8",
            Some("t,1,8 0/0/-/-/0/1 [8,2,1536,48000,6,0,1,77] 0B77C0033F800000 . ="),
            "x 0/8/77/-/0/1 [] . 0B77C0033F800000 ="),
        ("p - 8190 9 8 00",
            Some("t,0,0 0/1/-/-/0/1 [] . 00 ="),
            "t,0,0 0/7/-/-/2/1 [] . C0033F80000000 ="),
    ]),
    // Six bytes are enough for E-AC-3's head: the Rust hands them back with the head's length, 8.
    case("K6: six bytes of T are no frame at flush", (K6, Flush), &[
        ("s 0 6 77 - 0 0 0B77C0033F80", None, "o 0/6/77/-/0/0 [] . 0B77C0033F80 ="),
        ("f 8190 8 8",
            Some("t,1,6 0/0/-/-/0/0 [8,2,1536,48000,6,0,1,77] 0B77C0033F80 . ="),
            "x 0/6/77/-/0/0 [] . 0B77C0033F80 ="),
    ]),
    // C0 00 is crc1 there: 128 bytes, 32 kbit/s, bsid 8. Both give it.
    inside("K6: AC-3 whose crc1 begins with two ones is a frame", &[
        NEW_0,
        ("p 0 8190 128 144 0B77C000004040 00*121", None,
            "t,1,128 0/0/-/0:1:1536:48000:0/0/1 [128,1,1536,48000,2,32000,1,0] 0B77C000004040"),
    ]),
    // Byte 2 as 40 and as B8: strmtyp 1, and 2 with substreamid 7. Both give them.
    inside("K6: frames of types 1 and 2 are frames", &[
        NEW_0,
        ("p 0 8190 16 16 0B7740033F800000 0B77B8033F800000", None,
            "t,2,16 0/0/-/0:2:1536:48000:0/0/1 [8,2,1536,48000,6,0,1,0;8,2,1536,48000,6,0,1,2880] 0B7740033F8000000B77B8033F800000 . ="),
    ]),
    // 0B 77 00 07 ..: 16 bytes; T stands behind its eighth, and G behind that. The reader is asked at 0
    // and 16 alone.
    inside("K6: T inside another frame is never asked about", &[
        NEW_0,
        ("p 0 8190 24 24 0B7700073F800000 0B77C0033F800000 0B7700033F800000", None,
            "t,2,24 0/0/-/0:2:1536:48000:0/0/1 [16,2,1536,48000,6,0,1,0;8,2,1536,48000,6,0,1,2880] 0B7700073F8000000B77C0033F8000000B7700033F800000 . ="),
    ]),
    // Byte 5 as 88: bsid 17, which is nobody's, so that neither reads it.
    inside("K6: type 3 with a bsid that is nobody's was no head before", &[
        NEW_0,
        ("p 0 8190 8 8 0B77C0033F880000", None, "x 0/0/-/-/0/0 [] . . ="),
    ]),
    // One byte too few is lent for what is pending: the payload is not looked at.
    inside("K6: a refused push asks about no head", &[
        NEW_0,
        ("p 5 8189 8 8 0B77C0033F800000", None, "!12 0/0/-/-/0/0 [] . . ="),
        LOCKING_G,
    ]),
];
