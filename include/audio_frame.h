/*
 * Audio frame heads: AC-3 and E-AC-3, MPEG audio Layers I to III, AAC in ADTS.
 *
 * The library keeps no state, allocates nothing and reads and writes only the bytes named here, so
 * any number of threads may call it. Link with libheads.a (x86-64).
 */
#ifndef AUDIO_FRAME_H
#define AUDIO_FRAME_H

#include <stddef.h>
#include <stdint.h>

#ifdef __cplusplus
extern "C" {
#endif

/* Syntax codes. */
enum {
    AUDIO_FRAME_AC3 = 0,  /* AC-3 and E-AC-3 */
    AUDIO_FRAME_MPEG = 1, /* MPEG audio */
    AUDIO_FRAME_ADTS = 2  /* ADTS */
};

/* Bytes that a head's record takes. */
enum { AUDIO_FRAME_RECORD = 24 };

/*
 * Reads the head of a frame.
 *
 * code: the syntax code. head: the frame's first head_len bytes; more than the head needs does no
 * harm. out: out_len lent bytes. Neither pointer may be null, not even with a length of 0, and the
 * two parts of memory may not overlap.
 *
 * Returns 0 and writes out[0..24], six 32-bit little-endian numbers:
 *    0  kind: 1 AC-3, 2 E-AC-3, 3, 4, 5 MPEG Layers I, II, III, 6 ADTS
 *    4  length of the whole frame in bytes
 *    8  samples per channel
 *   12  rate in Hz
 *   16  channels; 0 where an ADTS head leaves them to the stream
 *   20  bit rate in bit/s; 0 for E-AC-3 and ADTS, whose heads have none
 * or returns the number of the first ground to refuse the call:
 *    7  syntax code above 2
 *   12  out_len below 24
 * and then, in an order that depends on the syntax,
 *    1  head too short: below 6 bytes (code 0), 4 (1), 7 (2); AC-3 below 7
 *    2  no sync word
 *    3  bsid 9, 10 or above 16; MPEG layer code 0; ADTS layer not 0
 *    4  reserved rate or size code; in E-AC-3 also strmtyp 3
 *    5  MPEG bit rate index 0 or 15
 *    6  ADTS frame shorter than its head: under 7; with CRC under 9, 11, 13, 15 for 1 to 4 blocks
 * The order is 1, 2, 3, 4 and at last 1 for AC-3's seventh byte (code 0); 1, 2, 3, 5, 4 (code 1);
 * 1, 2, 3, 4, 6 (code 2).
 *
 * Bytes of out from 24 on, and on a refusal all of them, stay as they were.
 */
uint32_t audio_frame_head(uint32_t code, const uint8_t *head, size_t head_len, uint8_t *out,
                          size_t out_len);

/*
 * The duration of a frame in 90 kHz ticks: (samples * 90000 + rate / 2) / rate, both divisions
 * rounding down, of which the low 32 bits; 0 where rate is 0.
 */
uint32_t audio_frame_duration_90k(uint32_t samples, uint32_t rate);

#ifdef __cplusplus
}
#endif

#endif
