//! What K7 changed of the splitter's answers, by hand, as in `changes.rs`: a tune that changes its rate.
//!
//! F is FF F1 50 80 00 E0 00, 1024 samples at 44100 Hz: k of them are floor(k × 1024 × 90000 / 44100)
//! ticks, 2089, 4179, 6269. H is the same with byte 2 as 4C, at 48000 Hz: 1920 ticks each; B with 6C, at
//! 8000 Hz: 11520 each. Byte 6 as 01 gives two blocks, 2048 samples. FF F1 4C 80 01 40 00 begins a frame
//! like H of ten bytes. Of E-AC-3, 0B 77 00 03 4F 80 begins a frame of 256 samples at 44100 Hz.

use crate::changes::{Changed, Turn, LOCKING_F, NEW_2};
use oracle::domain::Asked::Search;
use oracle::domain::Left::{self, Head, Stamps};
use oracle::domain::Request::K3;
use oracle::domain::Stamped::{Flushed, Given, Kept, Tail};

/// A case that leaves the domain by that, or does not, and for each line whether it is inside.
const fn case(
    name: &'static str,
    left: Option<Left>,
    sides: &'static str,
    turns: &'static [Turn],
) -> Changed {
    Changed { name, left, sides: Some(sides), turns }
}

/// F H at 0: the Rust has 0 and 1920; now H has 2089, and is the anchor.
#[rustfmt::skip]
const F_H: Turn = ("p 0 8190 14 16 FFF1508000E000 FFF14C8000E000",
    Some("t,2,14 2/0/-/0:2:1024:48000:0/0/1 [7,6,1024,44100,2,0,1,0;7,6,1024,48000,2,0,1,1920] FFF1508000E000FFF14C8000E000 . ="),
    "t,2,14 2/0/-/2089:1:1024:48000:0/0/1 [7,6,1024,44100,2,0,1,0;7,6,1024,48000,2,0,1,2089] FFF1508000E000FFF14C8000E000 . =");

/// H H at 5, where there is no anchor.
#[rustfmt::skip]
const H_H: Turn = ("p 5 8190 14 16 FFF14C8000E000*2", None,
    "t,2,14 2/0/-/5:2:1024:48000:0/0/1 [7,6,1024,48000,2,0,1,5;7,6,1024,48000,2,0,1,1925] FFF14C8000E000FFF14C8000E000 . =");

/// F without a timestamp, by which a new splitter is locked and has no anchor.
#[rustfmt::skip]
const F_UNSTAMPED: Turn =
    ("p - 8190 7 8 FFF1508000E000", None, "t,1,7 2/0/-/-/0/1 [7,6,1024,44100,2,0,0,0] FFF1508000E000 . =");

#[rustfmt::skip]
pub const STAMPS: [Changed; 30] = [
    // The Rust: a tail that brings the first timestamp leaves the rate unknown, and the next tail
    // repeats the time. Now the rate is learnt from the tail's own head before that tail is stamped.
    case("K7: S6", Some(Stamps(Tail)), "iioooo", &[
        NEW_2,
        F_UNSTAMPED,
        ("p 1000 8190 6 0 FFF1508000E0", None, "t,0,0 2/6/1000/1000:1:0:0:1/0/1 [] . FFF1508000E0 ="),
        ("p - 8190 13 8 00 FFF1508000E0",
            Some("t,1,7 2/6/1000/1000:2:0:0:0/0/1 [7,6,1024,44100,2,0,1,1000] FFF1508000E000 FFF1508000E0 ="),
            "t,1,7 2/6/3089/1000:2:1024:44100:0/0/1 [7,6,1024,44100,2,0,1,1000] FFF1508000E000 FFF1508000E0 ="),
        ("p - 8190 7 8 00",
            Some("t,1,7 2/0/-/1000:2:0:0:0/0/1 [7,6,1024,44100,2,0,1,1000] FFF1508000E000 . ="),
            "t,1,7 2/0/-/1000:2:1024:44100:0/0/1 [7,6,1024,44100,2,0,1,3089] FFF1508000E000 . ="),
        ("p - 8190 7 8 FFF1508000E000", None,
            "t,1,7 2/0/-/1000:3:1024:44100:0/0/1 [7,6,1024,44100,2,0,1,5179] FFF1508000E000 . ="),
    ]),
    // The Rust counts all frames by the last one's geometry: 1000, 1000 + 2089, 1000 + 2 * 1920,
    // 1000 + 3 * 1920, 1000 + floor(4 * 1024 * 90000 / 44100) = 9359.
    // Now: 1000, 3089, H at 1000 + 4179 and the anchor; H at 5179 + 1920, F at 5179 + 3840, the anchor.
    case("K7: F F H H F", Some(Stamps(Given)), "io", &[
        NEW_2,
        ("p 1000 8190 35 40 FFF1508000E000*2 FFF14C8000E000*2 FFF1508000E000",
            Some("t,5,35 2/0/-/1000:5:1024:44100:0/0/1 [7,6,1024,44100,2,0,1,1000;7,6,1024,44100,2,0,1,3089;7,6,1024,48000,2,0,1,4840;7,6,1024,48000,2,0,1,6760;7,6,1024,44100,2,0,1,9359] "),
            "t,5,35 2/0/-/9019:1:1024:44100:0/0/1 [7,6,1024,44100,2,0,1,1000;7,6,1024,44100,2,0,1,3089;7,6,1024,48000,2,0,1,5179;7,6,1024,48000,2,0,1,7099;7,6,1024,44100,2,0,1,9019] "),
    ]),
    // The Rust: 0, 11520, then 2 * F: 4179, which is before.
    case("K7: behind a slow track the time does not jump back", Some(Stamps(Given)), "io", &[
        NEW_2,
        ("p 0 8190 21 24 FFF16C8000E000*2 FFF1508000E000",
            Some("t,3,21 2/0/-/0:3:1024:44100:0/0/1 [7,6,1024,8000,2,0,1,0;7,6,1024,8000,2,0,1,11520;7,6,1024,44100,2,0,1,4179] "),
            "t,3,21 2/0/-/23040:1:1024:44100:0/0/1 [7,6,1024,8000,2,0,1,0;7,6,1024,8000,2,0,1,11520;7,6,1024,44100,2,0,1,23040] "),
    ]),
    // 2048 samples at the same rate: floor(2048 * 90000 / 44100) = 4179.
    case("K7: other samples at the same rate are another geometry", Some(Stamps(Given)), "io", &[
        NEW_2,
        ("p 0 8190 21 24 FFF1508000E001 FFF1508000E000*2",
            Some("t,3,21 2/0/-/0:3:1024:44100:0/0/1 [7,6,2048,44100,2,0,1,0;7,6,1024,44100,2,0,1,2089;7,6,1024,44100,2,0,1,4179] "),
            "t,3,21 2/0/-/4179:2:1024:44100:0/0/1 [7,6,2048,44100,2,0,1,0;7,6,1024,44100,2,0,1,4179;7,6,1024,44100,2,0,1,6268] "),
    ]),
    // The second payload's timestamp is for H, which is the anchor by it: both say so.
    case("K7: a timestamp makes the anchor, whatever was before", Some(Stamps(Given)), "iio", &[
        NEW_2,
        LOCKING_F,
        ("p 9000 8190 14 16 FFF14C8000E000*2", None,
            "t,2,14 2/0/-/9000:2:1024:48000:0/0/1 [7,6,1024,48000,2,0,1,9000;7,6,1024,48000,2,0,1,10920] FFF14C8000E000FFF14C8000E000 . ="),
    ]),
    // The Rust: its own geometry, k = 1: 1920. Now F's, 2089, and it is the anchor as it is kept. Kept
    // again and given it moves nothing. H behind it: the Rust's k is 2, 3840; now 2089 + 1920.
    case("K7: a frame that is kept becomes the anchor at once, and once", Some(Stamps(Kept)), "iiooo", &[
        NEW_2,
        LOCKING_F,
        ("p - 8190 8 8 FFF14C8001400000",
            Some("t,0,0 2/8/1920/0:2:1024:48000:0/0/1 [] . FFF14C8001400000 ="),
            "t,0,0 2/8/2089/2089:1:1024:48000:0/0/1 [] . FFF14C8001400000 ="),
        ("p - 8190 9 8 00",
            Some("t,0,0 2/9/1920/0:2:1024:48000:0/0/1 [] . FFF14C800140000000 ="),
            "t,0,0 2/9/2089/2089:1:1024:48000:0/0/1 [] . FFF14C800140000000 ="),
        ("p - 8190 17 16 00 FFF14C8000E000",
            Some("t,2,17 2/0/-/0:3:1024:48000:0/0/1 [10,6,1024,48000,2,0,1,1920;7,6,1024,48000,2,0,1,3840] FFF14C80014000000000FFF14C8000E000 . ="),
            "t,2,17 2/0/-/2089:2:1024:48000:0/0/1 [10,6,1024,48000,2,0,1,2089;7,6,1024,48000,2,0,1,4009] FFF14C80014000000000FFF14C8000E000 . ="),
    ]),
    // The tail is stamped by F's geometry in both. Its head is read when it is given: now it is the
    // anchor, at 3089, and H has 3089 + 1920. The Rust: k = 2 from 1000, 3840.
    case("K7: a tail becomes the anchor when it is given", Some(Stamps(Given)), "iio", &[
        NEW_2,
        ("p 1000 8190 13 8 FFF1508000E000 FFF14C8000E0", None,
            "t,1,7 2/6/3089/1000:2:1024:44100:0/0/1 [7,6,1024,44100,2,0,1,1000] FFF1508000E000 FFF14C8000E0 ="),
        ("p - 8190 14 16 00 FFF14C8000E000",
            Some("t,2,14 2/0/-/1000:3:1024:48000:0/0/1 [7,6,1024,48000,2,0,1,3089;7,6,1024,48000,2,0,1,4840] FFF14C8000E000FFF14C8000E000 . ="),
            "t,2,14 2/0/-/3089:2:1024:48000:0/0/1 [7,6,1024,48000,2,0,1,3089;7,6,1024,48000,2,0,1,5009] FFF14C8000E000FFF14C8000E000 . ="),
    ]),
    // Or when it is kept with its head read. F behind it: the Rust's k is 2, 1000 + 4179; now 3089 +
    // 1920, and F is the anchor.
    case("K7: a tail becomes the anchor when it is kept as a frame", Some(Stamps(Kept)), "iioo", &[
        NEW_2,
        ("p 1000 8190 13 8 FFF1508000E000 FFF14C800140", None,
            "t,1,7 2/6/3089/1000:2:1024:44100:0/0/1 [7,6,1024,44100,2,0,1,1000] FFF1508000E000 FFF14C800140 ="),
        ("p - 8190 8 8 0000",
            Some("t,0,0 2/8/3089/1000:2:1024:44100:0/0/1 [] . FFF14C8001400000 ="),
            "t,0,0 2/8/3089/3089:1:1024:48000:0/0/1 [] . FFF14C8001400000 ="),
        ("p - 8190 17 16 0000 FFF1508000E000",
            Some("t,2,17 2/0/-/1000:3:1024:44100:0/0/1 [10,6,1024,48000,2,0,1,3089;7,6,1024,44100,2,0,1,5179] FFF14C80014000000000FFF1508000E000 . ="),
            "t,2,17 2/0/-/5009:1:1024:44100:0/0/1 [10,6,1024,48000,2,0,1,3089;7,6,1024,44100,2,0,1,5009] FFF14C80014000000000FFF1508000E000 . ="),
    ]),
    // A tail that makes a later anchor: marked, and by the earlier one's geometry until it is read. With
    // one geometry both say the same.
    case("K7: a tail that makes the second anchor is inside", None, "iiii", &[
        NEW_2,
        LOCKING_F,
        ("p 5000 8190 6 0 FFF1508000E0", None, "t,0,0 2/6/5000/5000:1:1024:44100:1/0/1 [] . FFF1508000E0 ="),
        ("p - 8190 13 8 00 FFF1508000E0", None,
            "t,1,7 2/6/7089/5000:2:1024:44100:0/0/1 [7,6,1024,44100,2,0,1,5000] FFF1508000E000 FFF1508000E0 ="),
    ]),
    // Its head says 48000 Hz. The next tail: the Rust has the earlier anchor's rate, 5000 + 2089; now
    // the one that was learnt, 5000 + 1920.
    case("K7: a marked anchor learns another geometry than it held", Some(Stamps(Given)), "iiio", &[
        NEW_2,
        LOCKING_F,
        ("p 5000 8190 6 0 FFF14C8000E0", None, "t,0,0 2/6/5000/5000:1:1024:44100:1/0/1 [] . FFF14C8000E0 ="),
        ("p - 8190 13 8 00 FFF14C8000E0",
            Some("t,1,7 2/6/7089/5000:2:1024:44100:0/0/1 [7,6,1024,48000,2,0,1,5000] FFF14C8000E000 FFF14C8000E0 ="),
            "t,1,7 2/6/6920/5000:2:1024:48000:0/0/1 [7,6,1024,48000,2,0,1,5000] FFF14C8000E000 FFF14C8000E0 ="),
    ]),
    // FF and twelve 00: seven begin no head, and the six that are left begin in the payload. They have
    // the bare timestamp, count one, and leave the mark. Then F, k = 2: the next frame with its head
    // read teaches.
    case("K7: a tail without a timestamp counts, and leaves the mark", Some(Stamps(Tail)), "iiooo", &[
        NEW_2,
        F_UNSTAMPED,
        ("p 1000 8190 1 0 FF", None, "t,0,0 2/1/1000/1000:1:0:0:1/0/1 [] . FF ="),
        ("p - 8190 13 8 00*12", None, "t,0,0 2/6/1000/1000:2:0:0:1/7/1 [] . 000000000000 ="),
        ("p - 8190 13 8 FFF1508000E000", None,
            "t,1,7 2/0/-/1000:3:1024:44100:0/13/1 [7,6,1024,44100,2,0,1,5179] FFF1508000E000 . ="),
    ]),
    // F at 0; six bytes of H with 5000, which are lost; H behind them teaches 48000 Hz, k = 1, before it
    // is stamped. The Rust has its own geometry at once.
    case("K7: whichever frame is next teaches", Some(Stamps(Given)), "iiio", &[
        NEW_2,
        LOCKING_F,
        ("p 5000 8190 6 0 00*6", None, "t,0,0 2/6/5000/5000:1:1024:44100:1/0/1 [] . 000000000000 ="),
        ("p - 8190 13 8 FFF14C8000E000", None,
            "t,1,7 2/0/-/5000:2:1024:48000:0/6/1 [7,6,1024,48000,2,0,1,6920] FFF14C8000E000 . ="),
    ]),
    // A second tail with a timestamp holds what the first held. Seven 00 are no head: the stamp is void,
    // and the six that are left begin in pending bytes, and are neither stamped nor counted.
    case("K7: a marked anchor's geometry is held by the next tail's", None, "ooo", &[
        ("s 2 0 - 7:1:1152:48000:1 0 1", None, "o 2/0/-/7:1:1152:48000:1/0/1 [] . . ="),
        ("p 1000 8190 6 0 00*6", None, "t,0,0 2/6/1000/1000:1:1152:48000:1/0/1 [] . 000000000000 ="),
        ("p - 8190 7 8 00", None, "t,0,0 2/6/-/1000:1:1152:48000:1/1/1 [] . 000000000000 ="),
    ]),
    // A reset brings a run back that K7 alone took out, and so does an unlock.
    case("K7: a reset begins anew", Some(Stamps(Given)), "ioii", &[
        NEW_2,
        F_H,
        ("r", None, "o 2/0/-/-/0/1 [] . . ="),
        H_H,
    ]),
    case("K7: an unlock begins anew", Some(Stamps(Given)), "ioii", &[
        NEW_2,
        F_H,
        ("u", None, "o 2/0/-/-/0/0 [] . . ="),
        H_H,
    ]),
    // X of K3: what is cut is another, and after the reset so many bytes are lost.
    case("K7: a reset brings no run back that K3 ended", Some(Head(K3, Search)), "iiooo", &[
        NEW_2,
        LOCKING_F,
        ("p - 8190 9 8 FFF05080012001FFF1",
            Some("t,1,9 2/0/-/0:2:2048:44100:0/0/1 "),
            "t,0,0 2/6/2089/0:2:1024:44100:0/3/1 [] . 80012001FFF1 ="),
        ("r", Some("o 2/0/-/-/0/1 [] . . ="), "o 2/0/-/-/3/1 [] . . ="),
        ("p - 8190 7 8 FFF1508000E000",
            Some("t,1,7 2/0/-/-/0/1 "),
            "t,1,7 2/0/-/-/3/1 [7,6,1024,44100,2,0,0,0] FFF1508000E000 . ="),
    ]),
    // One byte too few is lent: H is not looked at.
    case("K7: a refused push changes no geometry", None, "iiii", &[
        NEW_2,
        LOCKING_F,
        ("p - 8190 6 8 FFF14C8000E000", None, "!12 2/0/-/0:1:1024:44100:0/0/1 [] . . ="),
        ("p - 8190 7 8 FFF1508000E000", None,
            "t,1,7 2/0/-/0:2:1024:44100:0/0/1 [7,6,1024,44100,2,0,1,2089] FFF1508000E000 . ="),
    ]),
    // 2^62 is inside, and so H is the anchor there. The next H has 1920 more, which moves nothing. F
    // would be the anchor at 2^62 + 3840: it has that stamp, and no anchor is left, nor a stamp for F.
    // The Rust: 2 * F and 3 * F from 2^62.
    case("K7: beyond 2^62 no anchor is left", Some(Stamps(Given)), "io", &[
        ("s 2 0 - 4611686018427387904:0:1024:44100:0 0 1", None, "o "),
        ("p - 8190 28 32 FFF14C8000E000*2 FFF1508000E000*2",
            Some("t,4,28 2/0/-/4611686018427387904:4:1024:44100:0/0/1 [7,6,1024,48000,2,0,1,4611686018427387904;7,6,1024,48000,2,0,1,4611686018427389824;7,6,1024,44100,2,0,1,4611686018427392083;7,6,1024,44100,2,0,1,4611686018427394173] "),
            "t,4,28 2/0/-/-/0/1 [7,6,1024,48000,2,0,1,4611686018427387904;7,6,1024,48000,2,0,1,4611686018427389824;7,6,1024,44100,2,0,1,4611686018427391744;7,6,1024,44100,2,0,0,0] "),
    ]),
    // A pending stamp may be any number: beyond either end it leaves no anchor, at an end it moves it.
    case("K7: a pending stamp below -2^62 leaves no anchor", Some(Stamps(Given)), "io", &[
        ("s 2 6 -4611686018427387905 0:1:1024:44100:0 0 1 FFF14C8000E0", None, "o "),
        ("p - 8190 7 8 00",
            Some("t,1,7 2/0/-/0:1:1024:44100:0/0/1 "),
            "t,1,7 2/0/-/-/0/1 [7,6,1024,48000,2,0,1,-4611686018427387905] FFF14C8000E000 . ="),
    ]),
    case("K7: a pending stamp at -2^62 is the anchor's", Some(Stamps(Given)), "io", &[
        ("s 2 6 -4611686018427387904 0:1:1024:44100:0 0 1 FFF14C8000E0", None, "o "),
        ("p - 8190 7 8 00",
            Some("t,1,7 2/0/-/0:1:1024:44100:0/0/1 "),
            "t,1,7 2/0/-/-4611686018427387904:1:1024:48000:0/0/1 [7,6,1024,48000,2,0,1,-4611686018427387904] FFF14C8000E000 . ="),
    ]),
    // It has the anchor's geometry, and so would not move it.
    case("K7: a far pending stamp of the same geometry leaves the anchor", None, "ii", &[
        ("s 2 6 9223372036854775807 0:1:1024:48000:0 0 1 FFF14C8000E0", None, "o "),
        ("p - 8190 7 8 00", None,
            "t,1,7 2/0/-/0:1:1024:48000:0/0/1 [7,6,1024,48000,2,0,1,9223372036854775807] FFF14C8000E000 . ="),
    ]),
    // No anchor: the pending stamp makes none, and F has no stamp.
    case("K7: without an anchor there is none to move", Some(Stamps(Given)), "io", &[
        ("s 2 6 77 - 0 1 FFF14C8000E0", None, "o 2/6/77/-/0/1 [] . FFF14C8000E0 ="),
        ("p - 8190 14 16 00 FFF1508000E000", None,
            "t,2,14 2/0/-/-/0/1 [7,6,1024,48000,2,0,1,77;7,6,1024,44100,2,0,0,0] FFF14C8000E000FFF1508000E000 . ="),
    ]),
    // Kept without a stamp: the marked anchor learns, and is not moved. Given: k = 3, 1000 + 5760.
    case("K7: a frame kept without a stamp teaches and moves nothing", None, "ooo", &[
        ("s 2 8 - 1000:3:1536:44100:1 0 1 FFF14C8001400000", None, "o "),
        ("p - 8190 9 8 00",
            Some("t,0,0 2/9/-/1000:3:1536:44100:0/0/1 [] . FFF14C800140000000 ="),
            "t,0,0 2/9/-/1000:3:1024:48000:0/0/1 [] . FFF14C800140000000 ="),
        ("p - 8190 10 8 00", None,
            "t,1,10 2/0/-/1000:4:1024:48000:0/0/1 [10,6,1024,48000,2,0,1,6760] FFF14C80014000000000 . ="),
    ]),
    // Unmarked the anchor keeps its geometry until it is given: k = 3 by 1536 samples at 44100 Hz:
    // floor(3 * 1536 * 90000 / 44100) = 9404. The Rust: 1000 + 5760.
    case("K7: a frame without a stamp becomes the anchor when it is given", Some(Stamps(Kept)), "ioo", &[
        ("s 2 8 - 1000:3:1536:44100:0 0 1 FFF14C8001400000", None, "o "),
        ("p - 8190 9 8 00", None, "t,0,0 2/9/-/1000:3:1536:44100:0/0/1 [] . FFF14C800140000000 ="),
        ("p - 8190 10 8 00",
            Some("t,1,10 2/0/-/1000:4:1024:48000:0/0/1 [10,6,1024,48000,2,0,1,6760] FFF14C80014000000000 . ="),
            "t,1,10 2/0/-/10404:1:1024:48000:0/0/1 [10,6,1024,48000,2,0,1,10404] FFF14C80014000000000 . ="),
    ]),
    // No call leaves a rate of 0 unmarked: F has the bare timestamp, and is the anchor. Marked it
    // teaches first: floor(7 * 1024 * 90000 / 44100) = 14628, as in the Rust.
    case("K7: a rate of 0 without a mark", Some(Stamps(Given)), "io", &[
        ("s 2 0 - 1000:7:0:0:0 0 1", None, "o "),
        ("p - 8190 7 8 FFF1508000E000",
            Some("t,1,7 2/0/-/1000:8:1024:44100:0/0/1 [7,6,1024,44100,2,0,1,15628] FFF1508000E000 . ="),
            "t,1,7 2/0/-/1000:1:1024:44100:0/0/1 [7,6,1024,44100,2,0,1,1000] FFF1508000E000 . ="),
    ]),
    case("K7: a rate of 0 with a mark", None, "oo", &[
        ("s 2 0 - 1000:7:0:0:1 0 1", None, "o "),
        ("p - 8190 7 8 FFF1508000E000", None,
            "t,1,7 2/0/-/1000:8:1024:44100:0/0/1 [7,6,1024,44100,2,0,1,15628] FFF1508000E000 . ="),
    ]),
    // Flush gives six bytes with their head read: with a stamp the frame becomes the anchor, at a bound
    // too, and beyond it leaves none; without one it moves nothing. A marked anchor learns either way.
    case("K7: a flush moves the anchor", Some(Stamps(Flushed)), "io", &[
        ("s 0 6 77 1000:5:1536:48000:0 0 1 0B7700034F80", None, "o "),
        ("f 8190 6 8",
            Some("t,1,6 0/0/-/1000:5:1536:48000:0/0/1 [8,2,256,44100,6,0,1,77] 0B7700034F80 . ="),
            "t,1,6 0/0/-/77:1:256:44100:0/0/1 [8,2,256,44100,6,0,1,77] 0B7700034F80 . ="),
    ]),
    case("K7: a flush beyond the bounds leaves no anchor", Some(Stamps(Flushed)), "io", &[
        ("s 0 6 4611686018427387905 0:1:1536:48000:0 0 1 0B7700034F80", None, "o "),
        ("f 8190 6 8",
            Some("t,1,6 0/0/-/0:1:1536:48000:0/0/1 "),
            "t,1,6 0/0/-/-/0/1 [8,2,256,44100,6,0,1,4611686018427387905] 0B7700034F80 . ="),
    ]),
    case("K7: a flush without a stamp moves nothing", Some(Stamps(Flushed)), "io", &[
        ("s 0 6 - 1000:5:1536:48000:0 0 1 0B7700034F80", None, "o "),
        ("f 8190 6 8", None,
            "t,1,6 0/0/-/1000:5:1536:48000:0/0/1 [8,2,256,44100,6,0,0,0] 0B7700034F80 . ="),
    ]),
    case("K7: a flush teaches, with a stamp or without", None, "oooo", &[
        ("s 0 6 77 1000:1:0:0:1 0 1 0B7700034F80", None, "o 0/6/77/1000:1:0:0:1/0/1 "),
        ("f 8190 6 8",
            Some("t,1,6 0/0/-/1000:1:0:0:0/0/1 "),
            "t,1,6 0/0/-/1000:1:256:44100:0/0/1 [8,2,256,44100,6,0,1,77] 0B7700034F80 . ="),
        ("s 0 6 - 1000:5:1536:48000:1 0 1 0B7700034F80", None, "o "),
        ("f 8190 6 8",
            Some("t,1,6 0/0/-/1000:5:1536:48000:0/0/1 "),
            "t,1,6 0/0/-/1000:5:256:44100:0/0/1 [8,2,256,44100,6,0,0,0] 0B7700034F80 . ="),
    ]),
];
