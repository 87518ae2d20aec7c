/*
 * Heads of audio frames for practice tapes: from their fields to bytes on a lent tape.
 *
 * The library keeps no state, allocates nothing and reads and writes only the bytes named here, so
 * any number of threads may call it. Link with libtapes.a (x86-64), beside libheads.a or without it.
 */
#ifndef AUDIO_FRAME_WRITE_H
#define AUDIO_FRAME_WRITE_H

#include <stddef.h>
#include <stdint.h>

#ifdef __cplusplus
extern "C" {
#endif

/*
 * Fields of each head, in the order of the standard's syntax table.
 *
 * AC-3 (A/52 Tables 5.1 and 5.2): syncword crc1 fscod frmsizecod bsid bsmod acmod cmixlev surmixlev
 *     dsurmod lfeon
 * E-AC-3 (A/52 Table E1.2): syncword strmtyp substreamid frmsiz fscod fscod2 numblkscod acmod lfeon
 *     bsid
 * MPEG audio (11172-3 2.4.1.3): syncword ID layer protection_bit bitrate_index sampling_frequency
 *     padding_bit private_bit mode mode_extension copyright original/home emphasis
 * ADTS (13818-7 Tables 8 and 9): syncword ID layer protection_absent profile
 *     sampling_frequency_index private_bit channel_configuration original/copy home
 *     copyright_identification_bit copyright_identification_start frame_length
 *     adts_buffer_fullness number_of_raw_data_blocks_in_frame
 */
enum {
    AUDIO_FRAME_AC3_FIELDS = 11,
    AUDIO_FRAME_EAC3_FIELDS = 10,
    AUDIO_FRAME_MPEG_FIELDS = 13,
    AUDIO_FRAME_ADTS_FIELDS = 15
};

/*
 * Writes a head into the middle of a tape: 7 bytes of AC-3, 6 of E-AC-3, 4 of MPEG audio, 7 of ADTS.
 *
 * fields: the head's fields, field_count of them, as listed above; one that acmod (AC-3) or fscod
 * (E-AC-3) leaves out is 0. tape: tape_len lent bytes. at: the place of the head's first byte, from
 * 0. Neither pointer may be null, not even with a length of 0, and the two parts of memory may not
 * overlap.
 *
 * Returns 0 and writes tape[at..at + 7] (6, 4, 7), bits behind the last field as 0, or returns the
 * number of the first ground to refuse the call:
 *   13  a field too large for its width; one that is left out and not 0; a bsid of 11 to 16 for
 *       AC-3, of 0 to 8 for E-AC-3; more or fewer fields than the head has
 *   12  fewer bytes from the place on than the head has
 * and then the number by which audio_frame_head (audio_frame.h) would refuse the head.
 *
 * All other bytes of the tape, and on a refusal all of them, stay as they were.
 */
uint32_t audio_frame_write_ac3(const uint32_t *fields, size_t field_count, uint8_t *tape,
                               size_t tape_len, size_t at);
uint32_t audio_frame_write_eac3(const uint32_t *fields, size_t field_count, uint8_t *tape,
                                size_t tape_len, size_t at);
uint32_t audio_frame_write_mpeg(const uint32_t *fields, size_t field_count, uint8_t *tape,
                                size_t tape_len, size_t at);
uint32_t audio_frame_write_adts(const uint32_t *fields, size_t field_count, uint8_t *tape,
                                size_t tape_len, size_t at);

#ifdef __cplusplus
}
#endif

#endif
