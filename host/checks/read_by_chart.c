/* Reads document 01's H5 by the chart through the C header, and fails where the answer is another one than the
 * document's. It is linked with libcharts.a alone. */
#include "audio_frame_chart.h"

#include <stdio.h>
#include <string.h>

int main(void)
{
    const uint8_t head[] = {0xFF, 0xFB, 0x90, 0xC0};
    /* 5, 417, 1152, 44100, 1, 128000, and a byte that stays. */
    const uint8_t expected[25] = {5, 0, 0, 0, 0xA1, 0x01, 0, 0, 0x80, 0x04, 0, 0, 0x44, 0xAC, 0, 0,
                                  1, 0, 0, 0, 0, 0xF4, 0x01, 0, 0xA5};
    uint8_t out[25];

    memset(out, 0xA5, sizeof out);
    /* Too few bytes are lent, then the head has too few. */
    int wrong = audio_frame_head_by_chart(head, sizeof head, out, 23) != 12;
    wrong |= audio_frame_head_by_chart(head, sizeof head - 1, out, sizeof out) != 1;
    for (size_t i = 0; i < sizeof out; i++)
        wrong |= out[i] != 0xA5;
    wrong |= audio_frame_head_by_chart(head, sizeof head, out, sizeof out) != 0;
    wrong |= memcmp(out, expected, sizeof out) != 0;
    if (wrong)
        fprintf(stderr, "this is not what the documents say\n");
    return wrong;
}
