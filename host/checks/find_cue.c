/* Asks which of two rows sounds at some times through the C header, and fails where the answer is another one than
 * request K4's. It is linked with libcues.a alone, and with the other archives. */
#include "audio_frame_cue.h"

#include <stdio.h>

int main(void)
{
    enum { COUNT = 2 * AUDIO_FRAME_ROW_WIDTH };
    /* Two ADTS frames, which begin at 0 and at 2089. */
    const int64_t rows[COUNT] = {7, 6, 1024, 44100, 2, 0, 1, 0, 7, 6, 1024, 44100, 2, 0, 1, 2089};

    int wrong = audio_frame_cue(rows, COUNT, 2088) != 0;
    wrong |= audio_frame_cue(rows, COUNT, 2089) != 1;
    wrong |= audio_frame_cue(rows, COUNT, INT64_MAX) != 1;
    wrong |= audio_frame_cue(rows, COUNT, -1) != AUDIO_FRAME_CUE_NONE;
    wrong |= audio_frame_cue(rows, 0, 0) != AUDIO_FRAME_CUE_NONE;
    wrong |= audio_frame_cue(rows, COUNT - 1, 2088) != AUDIO_FRAME_CUE_REFUSED;
    if (wrong)
        fprintf(stderr, "this is not what the request says\n");
    return wrong;
}
