/* Wrong libraries for host/selftests/cues. The runner is linked with --wrap for audio_frame_cue, so that its calls come
 * here and reach the library as __real_audio_frame_cue. The environment says in FAULT what goes wrong. */
#include "audio_frame_cue.h"

#include <stdlib.h>
#include <string.h>

enum { WIDTH = AUDIO_FRAME_ROW_WIDTH, MARK = 6, STAMP = 7 };

int64_t __real_audio_frame_cue(const int64_t *rows, size_t count, int64_t time);
int64_t __wrap_audio_frame_cue(const int64_t *rows, size_t count, int64_t time);

#define real __real_audio_frame_cue

/* Whether a row counts. */
typedef int counting(const int64_t *row, int64_t time);

static int right(const int64_t *row, int64_t time) { return row[MARK] == 1 && row[STAMP] <= time; }

/* The last of the whole rows that count. */
static int64_t last(const int64_t *rows, size_t count, int64_t time, counting *counts)
{
    for (size_t place = count / WIDTH; place-- > 0;)
        if (counts(rows + WIDTH * place, time))
            return (int64_t)place;
    return -1;
}

/* The same, where the list is made of whole rows. */
static int64_t whole(const int64_t *rows, size_t count, int64_t time, counting *counts)
{
    return count % WIDTH ? -14 : last(rows, count, time, counts);
}

/* ---- which rows count */

static int below(const int64_t *row, int64_t time) { return row[MARK] == 1 && row[STAMP] < time; }
static int behind(const int64_t *row, int64_t time) { return row[MARK] == 1 && row[STAMP] >= time; }
static int unsigned_stamps(const int64_t *row, int64_t time)
{
    return row[MARK] == 1 && (uint64_t)row[STAMP] <= (uint64_t)time;
}
static int stamps_of_32_bits(const int64_t *row, int64_t time)
{
    return row[MARK] == 1 && (int32_t)row[STAMP] <= (int32_t)time;
}
static int by_difference(const int64_t *row, int64_t time)
{
    return row[MARK] == 1 && (int64_t)((uint64_t)time - (uint64_t)row[STAMP]) >= 0;
}
static int from_mark_1(const int64_t *row, int64_t time) { return row[MARK] >= 1 && row[STAMP] <= time; }
static int marks_but_0(const int64_t *row, int64_t time) { return row[MARK] != 0 && row[STAMP] <= time; }
static int odd_marks(const int64_t *row, int64_t time) { return (row[MARK] & 1) && row[STAMP] <= time; }
static int marks_of_8_bits(const int64_t *row, int64_t time) { return (uint8_t)row[MARK] == 1 && row[STAMP] <= time; }
static int marks_of_32_bits(const int64_t *row, int64_t time)
{
    return (int32_t)row[MARK] == 1 && row[STAMP] <= time;
}
static int mark_2(const int64_t *row, int64_t time)
{
    return (row[MARK] == 1 || row[MARK] == 2) && row[STAMP] <= time;
}
static int any_mark(const int64_t *row, int64_t time) { return row[STAMP] <= time; }
static int no_stamp(const int64_t *row, int64_t time) { return row[MARK] == 1 || time == row[STAMP]; }
static int bit_rate_as_stamp(const int64_t *row, int64_t time) { return row[MARK] == 1 && row[5] <= time; }
static int length_as_stamp(const int64_t *row, int64_t time) { return row[MARK] == 1 && row[0] <= time; }
static int channels_as_mark(const int64_t *row, int64_t time) { return row[4] == 1 && row[STAMP] <= time; }

/* By name. */
static const struct { const char *name; counting *counts; } ROWS[] = {
    {"below", below}, {"behind", behind}, {"unsigned-stamps", unsigned_stamps},
    {"stamps-of-32-bits", stamps_of_32_bits}, {"by-difference", by_difference}, {"from-mark-1", from_mark_1},
    {"marks-but-0", marks_but_0}, {"odd-marks", odd_marks}, {"marks-of-8-bits", marks_of_8_bits},
    {"marks-of-32-bits", marks_of_32_bits}, {"mark-2", mark_2}, {"any-mark", any_mark}, {"no-stamp", no_stamp},
    {"bit-rate-as-stamp", bit_rate_as_stamp}, {"length-as-stamp", length_as_stamp},
    {"channels-as-mark", channels_as_mark},
};

/* ---- which of them is told, and how */

static int64_t latest_stamp(const int64_t *rows, size_t count, int64_t time)
{
    int64_t found = -1;
    for (size_t place = 0; count % WIDTH == 0 && place < count / WIDTH; place++)
        if (right(rows + WIDTH * place, time) &&
            (found < 0 || rows[WIDTH * place + STAMP] >= rows[WIDTH * found + STAMP]))
            found = (int64_t)place;
    return count % WIDTH ? -14 : found;
}
static int64_t first_row(const int64_t *rows, size_t count, int64_t time)
{
    for (size_t place = 0; count % WIDTH == 0 && place < count / WIDTH; place++)
        if (right(rows + WIDTH * place, time))
            return (int64_t)place;
    return real(rows, count, time);
}
static int64_t first_of_equal_stamps(const int64_t *rows, size_t count, int64_t time)
{
    int64_t found = real(rows, count, time);
    while (found > 0 && rows[WIDTH * (found - 1) + MARK] == 1 &&
           rows[WIDTH * (found - 1) + STAMP] == rows[WIDTH * found + STAMP])
        found--;
    return found;
}
static int64_t until_a_later_stamp(const int64_t *rows, size_t count, int64_t time)
{
    size_t place = 0;
    while (count % WIDTH == 0 && place < count / WIDTH &&
           (rows[WIDTH * place + MARK] != 1 || rows[WIDTH * place + STAMP] <= time))
        place++;
    return count % WIDTH ? -14 : last(rows, WIDTH * place, time, right);
}
static int64_t places_from_1(const int64_t *rows, size_t count, int64_t time)
{
    int64_t found = real(rows, count, time);
    return found < 0 ? found : found + 1;
}
static int64_t places_of_numbers(const int64_t *rows, size_t count, int64_t time)
{
    int64_t found = real(rows, count, time);
    return found < 0 ? found : found * WIDTH;
}
static int64_t places_of_8_bits(const int64_t *rows, size_t count, int64_t time)
{
    int64_t found = real(rows, count, time);
    return found < 0 ? found : found & 255;
}
static int64_t without_the_first_row(const int64_t *rows, size_t count, int64_t time)
{
    int64_t found = real(rows, count, time);
    return found == 0 ? -1 : found;
}
static int64_t without_the_last_row(const int64_t *rows, size_t count, int64_t time)
{
    return count % WIDTH || count == 0 ? real(rows, count, time) : real(rows, count - WIDTH, time);
}
static int64_t last_100_rows(const int64_t *rows, size_t count, int64_t time)
{
    int64_t found = real(rows, count, time);
    return found >= 0 && count / WIDTH - (size_t)found > 100 ? -1 : found;
}
static int64_t a_row_more(const int64_t *rows, size_t count, int64_t time)
{
    return count % WIDTH ? -14 : last(rows, count + WIDTH, time, right);
}
static int64_t a_row_before(const int64_t *rows, size_t count, int64_t time)
{
    int64_t found = real(rows, count, time);
    return found == -1 && right(rows - WIDTH, time) ? 0 : found;
}
static int64_t none_as_0(const int64_t *rows, size_t count, int64_t time)
{
    int64_t found = real(rows, count, time);
    return found == -1 ? 0 : found;
}
static int64_t none_as_the_count(const int64_t *rows, size_t count, int64_t time)
{
    int64_t found = real(rows, count, time);
    return found == -1 ? (int64_t)(count / WIDTH) : found;
}

/* ---- 14 */

static int64_t never_14(const int64_t *rows, size_t count, int64_t time) { return last(rows, count, time, right); }
static int64_t fourteen_where_none_counts(const int64_t *rows, size_t count, int64_t time)
{
    int64_t found = last(rows, count, time, right);
    return found < 0 && count % WIDTH ? -14 : found;
}
static int64_t fourteen_as_14(const int64_t *rows, size_t count, int64_t time)
{
    return count % WIDTH ? 14 : real(rows, count, time);
}
static int64_t fourteen_as_none(const int64_t *rows, size_t count, int64_t time)
{
    return count % WIDTH ? -1 : real(rows, count, time);
}
static int64_t fourteen_for_no_rows(const int64_t *rows, size_t count, int64_t time)
{
    return count == 0 ? -14 : real(rows, count, time);
}
static int64_t multiples_of_4(const int64_t *rows, size_t count, int64_t time)
{
    return count % 4 ? -14 : last(rows, count, time, right);
}
static int64_t multiples_of_16(const int64_t *rows, size_t count, int64_t time)
{
    return count % 16 ? -14 : real(rows, count, time);
}
static int64_t one_number_too_many(const int64_t *rows, size_t count, int64_t time)
{
    return count % WIDTH > 1 ? -14 : last(rows, count, time, right);
}
static int64_t fourteen_for_other_marks(const int64_t *rows, size_t count, int64_t time)
{
    for (size_t place = 0; place < count / WIDTH; place++)
        if (rows[WIDTH * place + MARK] < 0 || rows[WIDTH * place + MARK] > 1)
            return -14;
    return real(rows, count, time);
}

/* ---- what must stay */

static int64_t changes_a_number(const int64_t *rows, size_t count, int64_t time)
{
    int64_t found = real(rows, count, time);
    if (found >= 0)
        ((int64_t *)rows)[WIDTH * found] ^= 1;
    return found;
}
static int64_t changes_behind(const int64_t *rows, size_t count, int64_t time)
{
    int64_t found = real(rows, count, time);
    ((int64_t *)rows)[count] ^= 1;
    return found;
}
static int64_t changes_before(const int64_t *rows, size_t count, int64_t time)
{
    int64_t found = real(rows, count, time);
    ((int64_t *)rows)[-1] ^= 1;
    return found;
}
static int64_t keeps_its_answer(const int64_t *rows, size_t count, int64_t time)
{
    static int64_t kept, kept_time;
    static size_t kept_count = 1;
    if (count != kept_count || time != kept_time)
        kept = real(rows, count, time);
    kept_count = count;
    kept_time = time;
    return kept;
}

typedef int64_t cue(const int64_t *rows, size_t count, int64_t time);

/* By name. */
static const struct { const char *name; cue *call; } CALLS[] = {
    {"none", real}, {"latest-stamp", latest_stamp}, {"first-row", first_row},
    {"first-of-equal-stamps", first_of_equal_stamps}, {"until-a-later-stamp", until_a_later_stamp},
    {"places-from-1", places_from_1}, {"places-of-numbers", places_of_numbers},
    {"places-of-8-bits", places_of_8_bits}, {"without-the-first-row", without_the_first_row},
    {"without-the-last-row", without_the_last_row}, {"last-100-rows", last_100_rows}, {"a-row-more", a_row_more},
    {"a-row-before", a_row_before}, {"none-as-0", none_as_0}, {"none-as-the-count", none_as_the_count},
    {"never-14", never_14}, {"14-where-none-counts", fourteen_where_none_counts}, {"14-as-14", fourteen_as_14},
    {"14-as-none", fourteen_as_none}, {"14-for-no-rows", fourteen_for_no_rows}, {"multiples-of-4", multiples_of_4},
    {"multiples-of-16", multiples_of_16}, {"one-number-too-many", one_number_too_many},
    {"14-for-other-marks", fourteen_for_other_marks}, {"changes-a-number", changes_a_number},
    {"changes-behind", changes_behind}, {"changes-before", changes_before}, {"keeps-its-answer", keeps_its_answer},
};

int64_t __wrap_audio_frame_cue(const int64_t *rows, size_t count, int64_t time)
{
    static cue *call;
    static counting *counts;
    const char *name = getenv("FAULT");
    if (name == NULL)
        abort();
    for (size_t n = 0; !call && n < sizeof CALLS / sizeof *CALLS; n++)
        if (strcmp(CALLS[n].name, name) == 0)
            call = CALLS[n].call;
    for (size_t n = 0; !call && !counts && n < sizeof ROWS / sizeof *ROWS; n++)
        if (strcmp(ROWS[n].name, name) == 0)
            counts = ROWS[n].counts;
    if (!call && !counts)
        abort();
    return call ? call(rows, count, time) : whole(rows, count, time, counts);
}
