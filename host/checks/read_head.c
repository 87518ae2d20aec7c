/* Writes the head of document 01's ADTS frame F from its fields through the C header and reads it again, prints what it
 * says, and fails where the document says otherwise. It is linked with all archives. */
#include "audio_frame.h"
#include "audio_frame_chart.h"
#include "audio_frame_write.h"

#include <stdio.h>
#include <string.h>

/* The number at place i of a record. */
static uint32_t number(const uint8_t *out, size_t i)
{
    const uint8_t *b = out + 4 * i;
    return b[0] | (uint32_t)b[1] << 8 | (uint32_t)b[2] << 16 | (uint32_t)b[3] << 24;
}

/* Whether the chart reader answers to document 01's H5 in another way than the present one. */
static int chart_differs(void)
{
    const uint8_t head[] = {0xFF, 0xFB, 0x90, 0xC0};
    uint8_t out[AUDIO_FRAME_RECORD], by_chart[AUDIO_FRAME_RECORD];

    return audio_frame_head(AUDIO_FRAME_MPEG, head, sizeof head, out, sizeof out) != 0 ||
           audio_frame_head_by_chart(head, sizeof head, by_chart, sizeof by_chart) != 0 ||
           memcmp(by_chart, out, sizeof out) != 0;
}

int main(void)
{
    static const char *const names[] = {"kind", "length", "samples", "rate", "channels", "bit rate"};
    static const uint32_t expected[] = {6, 7, 1024, 44100, 2, 0};
    const uint8_t head[] = {0xFF, 0xF1, 0x50, 0x80, 0x00, 0xE0, 0x00};
    uint8_t out[AUDIO_FRAME_RECORD];
    int wrong = 0;

    uint32_t refusal = audio_frame_head(AUDIO_FRAME_ADTS, head, sizeof head, out, sizeof out);
    if (refusal != 0) {
        fprintf(stderr, "refused with number %u\n", (unsigned)refusal);
        return 1;
    }
    for (size_t i = 0; i < 6; i++) {
        printf("%-9s %u\n", names[i], (unsigned)number(out, i));
        wrong |= number(out, i) != expected[i];
    }

    /* The same head from its fields, behind one byte of the tape and before another. */
    uint32_t fields[AUDIO_FRAME_ADTS_FIELDS] = {0xFFF, 0, 0, 1, 1, 4, 0, 2, 0, 0, 0, 0, 7, 0, 0};
    uint8_t tape[9] = {0xA5, [8] = 0xA5};
    wrong |= audio_frame_write_adts(fields, AUDIO_FRAME_ADTS_FIELDS, tape, sizeof tape, 1) != 0;
    wrong |= memcmp(tape + 1, head, sizeof head) != 0 || tape[0] != 0xA5 || tape[8] != 0xA5;
    /* Fifteen bits of frame_length, and a place from which on there is too little room. */
    wrong |= audio_frame_write_adts(fields, AUDIO_FRAME_ADTS_FIELDS, tape, sizeof tape, 3) != 12;
    fields[12] = 1 << 14;
    wrong |= audio_frame_write_adts(fields, AUDIO_FRAME_ADTS_FIELDS, tape, sizeof tape, 3) != 13;
    /* AC-3 from bytes that E-AC-3 has, and the other way round; MPEG audio's free format. */
    const uint32_t ac3[AUDIO_FRAME_AC3_FIELDS] = {0x0B77, 0, 0, 0, 16, 0, 2, 0, 0, 0, 0};
    const uint32_t eac3[AUDIO_FRAME_EAC3_FIELDS] = {0x0B77, 0, 0, 3, 0, 0, 3, 7, 1, 8};
    const uint32_t mpeg[AUDIO_FRAME_MPEG_FIELDS] = {0xFFF, 1, 1, 1, 0, 0, 0, 0, 3, 0, 0, 0, 0};
    wrong |= audio_frame_write_ac3(ac3, AUDIO_FRAME_AC3_FIELDS, tape, sizeof tape, 0) != 13;
    wrong |= audio_frame_write_eac3(eac3, AUDIO_FRAME_EAC3_FIELDS, tape, sizeof tape, 0) != 13;
    wrong |= audio_frame_write_mpeg(mpeg, AUDIO_FRAME_MPEG_FIELDS, tape, sizeof tape, 0) != 5;

    /* One byte short of the head: number 1. */
    wrong |= audio_frame_head(AUDIO_FRAME_ADTS, head, sizeof head - 1, out, sizeof out) != 1;
    wrong |= chart_differs();
    /* Document 01's D1. */
    wrong |= audio_frame_duration_90k(65536, 1) != 1603272704;
    if (wrong)
        fprintf(stderr, "this is not what the documents say\n");
    return wrong;
}
