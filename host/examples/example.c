/* Prints the length and rate of the ADTS frame on standard input, or the number of its refusal. */
#include "audio_frame.h"
#include <stdio.h>

int main(void)
{
    uint8_t head[7];
    size_t len = fread(head, 1, sizeof head, stdin);
    /* Kind, length, samples, rate, channels, bit rate: little-endian, as x86-64 is. */
    uint32_t record[6];
    uint8_t *out = (uint8_t *)record;
    uint32_t refusal = audio_frame_head(AUDIO_FRAME_ADTS, head, len, out, sizeof record);
    if (refusal == 0)
        printf("%u bytes, %u Hz\n", record[1], record[3]);
    else
        printf("refused with number %u\n", refusal);
    return 0;
}
