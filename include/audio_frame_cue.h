/*
 * Which frame sounds at a cue, by the rows of a stream.
 *
 * The library keeps no state, allocates nothing and reads only the numbers named here, so any
 * number of threads may call it. Link with libcues.a (x86-64), beside the other archives or without
 * them.
 */
#ifndef AUDIO_FRAME_CUE_H
#define AUDIO_FRAME_CUE_H

#include <stddef.h>
#include <stdint.h>

#ifdef __cplusplus
extern "C" {
#endif

/*
 * How many numbers a row has: length, kind, samples, rate, channels, bit rate or 0, mark and stamp.
 * The mark is 1 where the frame has a stamp, which is in ticks of 1/90000 second.
 */
#define AUDIO_FRAME_ROW_WIDTH 8

#define AUDIO_FRAME_CUE_NONE (-1)
#define AUDIO_FRAME_CUE_REFUSED (-14)

/*
 * Returns the place, from 0, of the row standing last in the list among those whose stamp is at or
 * before the time. Only rows whose mark is 1 count. Returns AUDIO_FRAME_CUE_NONE where there is
 * none, and AUDIO_FRAME_CUE_REFUSED, for the number 14, where rows_len is no multiple of
 * AUDIO_FRAME_ROW_WIDTH: then no row is looked at.
 *
 * rows: rows_len numbers, any at all; the pointer may not be null, not even with a length of 0.
 * time: in ticks.
 */
int64_t audio_frame_cue(const int64_t *rows, size_t rows_len, int64_t time);

#ifdef __cplusplus
}
#endif

#endif
