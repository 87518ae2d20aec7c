/* Wrong libraries for host/selftests/heads. The runner is linked with --wrap for audio_frame_head, the chart reader and
 * the four writers, so that its calls come here and reach the library as __real_audio_frame_head and so on. FAULT says
 * what goes wrong. */
#include "audio_frame.h"
#include "audio_frame_chart.h"
#include "audio_frame_write.h"

#include <string.h>

uint32_t __real_audio_frame_head(uint32_t code, const uint8_t *head, size_t head_len, uint8_t *out,
                                 size_t out_len);
uint32_t __wrap_audio_frame_head(uint32_t code, const uint8_t *head, size_t head_len, uint8_t *out,
                                 size_t out_len);

enum fault {
    CHANGES_BYTE_24 = 1,
    CHANGES_BYTE_BEHIND_OUT,
    CHANGES_BYTE_BEFORE_OUT,
    WRITES_ON_REFUSAL,
    WRITES_ON_12,
    TESTS_12_BEFORE_7,
    TESTS_HEAD_BEFORE_12,
    TAKES_23_BYTES,
    READS_PAST_HEAD,
    COUNTS_NO_POSITIONS,
    READS_TYPE_3,
    REFUSES_TYPE_2,
    REFUSES_AC3_OF_TWO_ONES,
    WRITES_BEHIND_HEAD,
    WRITES_BEFORE_PLACE,
    WRITES_BEHIND_TAPE,
    WRITES_ON_13,
    WRITES_ON_THE_READERS_NUMBER,
    WRITES_12_BEFORE_13,
    WRITES_READER_BEFORE_12,
    WRITES_EXCHANGED_FIELDS,
    WRITES_LEFT_OUT_FIELDS,
    WRITES_BSID_16_AS_AC3,
    WRITES_UNUSED_BITS,
    WRITES_ONE_FIELD_MORE,
    WRITES_NEAR_THE_LARGEST_PLACE,
    WRITES_WITHOUT_POSITIONS,
    WRITES_TYPE_3,
    CHART_PADS_LAYER_I_BY_1,
    CHART_PADS_LAYER_II_BY_4,
    CHART_HAS_TWO_RATES_EXCHANGED,
    CHART_HAS_TWO_LAYERS_EXCHANGED,
    CHART_HAS_ONE_WRONG_LENGTH,
    CHART_IS_WRONG_AT_ONE_HEAD,
    CHART_TAKES_INDEX_15,
    CHART_TESTS_4_BEFORE_5,
    CHART_TESTS_HEAD_BEFORE_12,
    CHART_ANSWERS_1_TO_A_SHORT_OUT,
    CHART_WRITES_ON_REFUSAL,
    CHART_WRITES_ON_12,
    CHART_CHANGES_BYTE_24,
    CHART_CHANGES_BYTE_BEHIND_OUT,
    CHART_READS_PAST_HEAD,
    CHART_HAS_ONE_CHANNEL,
};

/* A writer of the library. */
typedef uint32_t writer(const uint32_t *fields, size_t field_count, uint8_t *tape, size_t tape_len,
                        size_t at);

/* A head of so many bytes and fields, written with a fault. */
static uint32_t write_wrongly(writer *real, size_t size, size_t count, const uint32_t *fields,
                              size_t field_count, uint8_t *tape, size_t tape_len, size_t at)
{
    enum fault fault = FAULT;
    uint32_t own[16] = {0};
    uint8_t scratch[8];
    int has_room = at <= tape_len && tape_len - at >= size;

    if (field_count <= 16)
        memcpy(own, fields, field_count * sizeof *own);
    if (fault == WRITES_12_BEFORE_13 && !has_room)
        return 12;
    if (fault == WRITES_READER_BEFORE_12 && !has_room)
        return real(fields, field_count, scratch, sizeof scratch, 0) == 0 ? 12
               : real(fields, field_count, scratch, sizeof scratch, 0);
    if (fault == WRITES_EXCHANGED_FIELDS && size == 4) {
        own[10] = fields[11];
        own[11] = fields[10];
    }
    if (fault == WRITES_LEFT_OUT_FIELDS && count == 11 && own[6] == 2)
        own[7] = 0;
    if (fault == WRITES_BSID_16_AS_AC3 && count == 11 && own[4] == 16)
        own[4] = 8;
    if (fault == WRITES_ONE_FIELD_MORE && field_count == count + 1)
        field_count = count;
    if (fault == WRITES_NEAR_THE_LARGEST_PLACE && at > (size_t)-size)
        at = 0;
    uint8_t blocks = 0;
    if (fault == WRITES_WITHOUT_POSITIONS && count == AUDIO_FRAME_ADTS_FIELDS && own[3] == 0 && own[14] <= 3) {
        blocks = (uint8_t)own[14];
        own[14] = 0;
    }
    int is_type_3 = fault == WRITES_TYPE_3 && count == AUDIO_FRAME_EAC3_FIELDS && own[1] == 3;
    if (is_type_3)
        own[1] = 0;

    uint32_t status = real(own, field_count, tape, tape_len, at);
    if (fault == WRITES_BEHIND_HEAD && status == 0 && at + size < tape_len)
        tape[at + size] = 0;
    if (fault == WRITES_BEFORE_PLACE && status == 0 && at > 0)
        tape[at - 1] = 0;
    if (fault == WRITES_BEHIND_TAPE && status == 0)
        tape[tape_len] ^= 1;
    if (fault == WRITES_ON_13 && status == 13 && has_room)
        tape[at] ^= 1;
    if (fault == WRITES_ON_THE_READERS_NUMBER && status >= 1 && status <= 6)
        tape[at] ^= 1;
    if (fault == WRITES_UNUSED_BITS && status == 0 && size == 6)
        tape[at + 5] |= 1;
    if (status == 0 && blocks > 0)
        tape[at + 6] |= blocks;
    if (status == 0 && is_type_3)
        tape[at + 2] |= 0xC0;
    return status;
}

#define WRITER(name, size, count)                                                                  \
    writer __real_##name, __wrap_##name;                                                           \
    uint32_t __wrap_##name(const uint32_t *fields, size_t field_count, uint8_t *tape,              \
                           size_t tape_len, size_t at)                                             \
    {                                                                                              \
        return write_wrongly(__real_##name, size, count, fields, field_count, tape, tape_len, at); \
    }

WRITER(audio_frame_write_ac3, 7, AUDIO_FRAME_AC3_FIELDS)
WRITER(audio_frame_write_eac3, 6, AUDIO_FRAME_EAC3_FIELDS)
WRITER(audio_frame_write_mpeg, 4, AUDIO_FRAME_MPEG_FIELDS)
WRITER(audio_frame_write_adts, 7, AUDIO_FRAME_ADTS_FIELDS)

/* An ADTS head of at least 7 bytes with CRC as the unchanged Rust reads it, with no bytes for the positions of further
 * blocks: it is asked about without those blocks, and their samples, 1024 each, are put in afterwards. */
static uint32_t read_without_positions(const uint8_t *head, uint8_t *out, size_t out_len)
{
    uint8_t own[7];

    memcpy(own, head, sizeof own);
    own[6] &= 0xFC;
    uint32_t status = __real_audio_frame_head(AUDIO_FRAME_ADTS, own, sizeof own, out, out_len);
    if (status == 0)
        out[9] = (uint8_t)(4 * (1 + (head[6] & 3)));
    return status;
}

/* An E-AC-3 head of stream type 3 as the unchanged Rust reads it, which goes by no type: as type 0. */
static uint32_t read_as_type_0(const uint8_t *head, uint8_t *out, size_t out_len)
{
    uint8_t own[6];

    memcpy(own, head, sizeof own);
    own[2] &= 0x3F;
    return __real_audio_frame_head(AUDIO_FRAME_AC3, own, sizeof own, out, out_len);
}

uint32_t __wrap_audio_frame_head(uint32_t code, const uint8_t *head, size_t head_len, uint8_t *out,
                                 size_t out_len)
{
    enum fault fault = FAULT;
    uint8_t record[AUDIO_FRAME_RECORD];
    uint32_t own = __real_audio_frame_head(code, head, head_len, record, sizeof record);

    if (fault == TESTS_12_BEFORE_7 && out_len < sizeof record)
        return 12;
    if (fault == TESTS_HEAD_BEFORE_12 && own != 0)
        return own;
    if (fault == TAKES_23_BYTES && own == 0 && out_len == 23) {
        memcpy(out, record, out_len);
        return 0;
    }
    if (fault == READS_PAST_HEAD)
        head_len++;
    if (fault == COUNTS_NO_POSITIONS && code == AUDIO_FRAME_ADTS && head_len >= 7 && (head[1] & 1) == 0)
        return read_without_positions(head, out, out_len);
    if (code == AUDIO_FRAME_AC3 && head_len >= 6) {
        int is_eac3 = head[5] >> 3 >= 11, has_room = out_len >= sizeof record;
        int type = head[2] >> 6; /* in AC-3 the first two bits of crc1 */
        if (fault == READS_TYPE_3 && is_eac3 && type == 3)
            return read_as_type_0(head, out, out_len);
        if (fault == REFUSES_TYPE_2 && is_eac3 && type == 2 && own == 0 && has_room)
            return 4;
        if (fault == REFUSES_AC3_OF_TWO_ONES && !is_eac3 && type == 3 && own == 0 && has_room)
            return 4;
    }

    uint32_t status = __real_audio_frame_head(code, head, head_len, out, out_len);
    if (fault == CHANGES_BYTE_24 && status == 0 && out_len > 24)
        out[24] ^= 1;
    if (fault == CHANGES_BYTE_BEHIND_OUT)
        out[out_len] ^= 1;
    if (fault == CHANGES_BYTE_BEFORE_OUT)
        *(out - 1) ^= 1;
    if (fault == WRITES_ON_REFUSAL && status >= 1 && status <= 6)
        out[23] ^= 1;
    if (fault == WRITES_ON_12 && status == 12 && out_len > 0)
        out[0] ^= 1;
    return status;
}

typedef uint32_t chart_reader(const uint8_t *head, size_t head_len, uint8_t *out, size_t out_len);
chart_reader __real_audio_frame_head_by_chart, __wrap_audio_frame_head_by_chart;

/* A head's indices as the fault takes them. Byte 2 has bitrate_index as 0xF0 and sampling_frequency as 0x0C. */
static void take_wrongly(uint8_t *head)
{
    enum fault fault = FAULT;
    int index = head[2] >> 4, rate = head[2] >> 2 & 3;

    if (fault == CHART_TAKES_INDEX_15 && index == 15)
        head[2] ^= 0x10;
    if (fault == CHART_TESTS_4_BEFORE_5 && (index == 0 || index == 15) && rate == 3)
        head[2] ^= 0x10;
}

/* The length in the record of a head, as the fault has it. Byte 1 has ID as 0x08 and layer as 0x06. */
static void measure_wrongly(const uint8_t *head, uint8_t *record)
{
    enum fault fault = FAULT;
    uint8_t other[4], exchanged[AUDIO_FRAME_RECORD];
    int padding = head[2] >> 1 & 1;

    memcpy(other, head, sizeof other);
    if (fault == CHART_HAS_TWO_RATES_EXCHANGED && (head[2] & 0x08) == 0)
        other[2] ^= 0x04;
    if (fault == CHART_HAS_TWO_LAYERS_EXCHANGED && (head[1] & 0x04) != 0)
        other[1] ^= 0x02;
    __real_audio_frame_head_by_chart(other, sizeof other, exchanged, sizeof exchanged);
    memcpy(record + 4, exchanged + 4, 4);
    if (fault == CHART_PADS_LAYER_I_BY_1 && record[0] == 3)
        record[4] -= 3 * padding;
    if (fault == CHART_PADS_LAYER_II_BY_4 && record[0] == 4)
        record[4] += 3 * padding;
    if (fault == CHART_HAS_ONE_WRONG_LENGTH && (head[1] & 0x0E) == 0x02 && head[2] >> 2 == 0x3A)
        record[4] ^= 1;
    if (fault == CHART_IS_WRONG_AT_ONE_HEAD && memcmp(head, "\xFF\xF4\x37\x9B", 4) == 0)
        record[4] ^= 1;
}

uint32_t __wrap_audio_frame_head_by_chart(const uint8_t *head, size_t head_len, uint8_t *out,
                                          size_t out_len)
{
    enum fault fault = FAULT;
    uint8_t own[4] = {0}, record[AUDIO_FRAME_RECORD] = {0};

    if (fault == CHART_READS_PAST_HEAD)
        head_len++;
    size_t own_len = head_len < sizeof own ? head_len : sizeof own;
    memcpy(own, head, own_len);
    take_wrongly(own);
    uint32_t status = __real_audio_frame_head_by_chart(own, own_len, record, sizeof record);
    if (status == 0)
        measure_wrongly(own, record);

    if (fault == CHART_TESTS_HEAD_BEFORE_12 && status != 0)
        return status;
    if (fault == CHART_WRITES_ON_12 && out_len == 23)
        memcpy(out, record, out_len);
    if (out_len < sizeof record)
        return fault == CHART_ANSWERS_1_TO_A_SHORT_OUT ? 1 : 12;
    if (status == 0 || fault == CHART_WRITES_ON_REFUSAL)
        memcpy(out, record, sizeof record);
    if (fault == CHART_CHANGES_BYTE_24 && status == 0 && out_len > 24)
        out[24] ^= 1;
    if (fault == CHART_CHANGES_BYTE_BEHIND_OUT)
        out[out_len] ^= 1;
    if (fault == CHART_HAS_ONE_CHANNEL && status == 0)
        out[16] = 1;
    return status;
}
