/*
 * Heads of MPEG audio frames, Layers I to III, read by the wall chart of lengths.
 *
 * The library keeps no state, allocates nothing and reads and writes only the bytes named here, so
 * any number of threads may call it. Link with libcharts.a (x86-64), beside the other archives or
 * without them.
 */
#ifndef AUDIO_FRAME_CHART_H
#define AUDIO_FRAME_CHART_H

#include <stddef.h>
#include <stdint.h>

#ifdef __cplusplus
extern "C" {
#endif

/*
 * Reads the head of an MPEG audio frame, and takes the frame's length from the chart: 252 lengths
 * without padding, by ID, layer, bitrate_index and sampling_frequency.
 *
 * head: the frame's first head_len bytes; more than the head needs does no harm. out: out_len lent
 * bytes. Neither pointer may be null, not even with a length of 0, and the two parts of memory may
 * not overlap.
 *
 * The answer is that of audio_frame_head (audio_frame.h) with code 1, for all heads and lengths.
 * Returns 0 and writes the same record to out[0..24], or returns 12 where out_len is below 24, and
 * then the number of the first ground to refuse the head, in the order 1, 2, 3, 5, 4.
 *
 * Bytes of out from 24 on, and on a refusal all of them, stay as they were.
 */
uint32_t audio_frame_head_by_chart(const uint8_t *head, size_t head_len, uint8_t *out,
                                   size_t out_len);

#ifdef __cplusplus
}
#endif

#endif
