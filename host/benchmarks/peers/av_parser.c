/* libavcodec's parsers over the stream of a benchmark, as bench_splitter asks for it: standard input has a line
   `CODE SIZE ROUNDS` and then the stream. ROUNDS times a parser is opened, and the stream handed to av_parser_parse2 in
   payloads of SIZE bytes, the first with timestamp 0. It prints the frames, their bytes, and, in the places of numbers
   that a parser does not tell, 0; last the sum of the frames' last bytes. It does not cut as the splitter does (a
   last frame stays with it, and bytes before a head are handed over too), so its sums are its own.

   cc -O3 -o av_parser av_parser.c $(pkg-config --cflags --libs libavcodec libavutil) */
#include <libavcodec/avcodec.h>
#include <inttypes.h>
#include <stdint.h>
#include <stdio.h>
#include <stdlib.h>

static const enum AVCodecID syntaxes[3] = {AV_CODEC_ID_AC3, AV_CODEC_ID_MP3, AV_CODEC_ID_AAC};

struct sums {
    uint64_t frames, bytes, last_bytes;
};

static struct sums round_of(enum AVCodecID id, const uint8_t *stream, size_t length, size_t size, struct sums sums)
{
    AVCodecParserContext *parser = av_parser_init(id);
    AVCodecContext *context = avcodec_alloc_context3(NULL);
    if (!parser || !context)
        exit(2);
    context->codec_id = id;
    int64_t pts = 0;
    for (size_t at = 0; at < length; at += size) {
        const uint8_t *payload = stream + at;
        size_t left = size < length - at ? size : length - at;
        while (left > 0) {
            uint8_t *frame;
            int bytes;
            int used = av_parser_parse2(parser, context, &frame, &bytes, payload, (int)left, pts, AV_NOPTS_VALUE, -1);
            pts = AV_NOPTS_VALUE;
            if (used < 0)
                exit(2);
            payload += used;
            left -= (size_t)used;
            if (bytes > 0) {
                sums.frames++;
                sums.bytes += (uint64_t)bytes;
                sums.last_bytes += frame[bytes - 1];
            }
        }
    }
    avcodec_free_context(&context);
    av_parser_close(parser);
    return sums;
}

int main(void)
{
    unsigned code;
    size_t size;
    uint64_t rounds;
    if (scanf("%u %zu %" SCNu64, &code, &size, &rounds) != 3 || getchar() != '\n' || code > 2 || size == 0)
        return 2;
    enum { most = 1 << 24 };
    /* A parser may look past what it is lent. */
    uint8_t *stream = calloc(1, most + AV_INPUT_BUFFER_PADDING_SIZE);
    if (!stream)
        return 2;
    size_t length = fread(stream, 1, most, stdin);
    struct sums sums = {0, 0, 0};
    for (uint64_t i = 0; i < rounds; i++)
        sums = round_of(syntaxes[code], stream, length, size, sums);
    printf("%" PRIu64 " %" PRIu64 " 0 0 0 %" PRIu64 "\n", sums.frames, sums.bytes, sums.last_bytes);
    return 0;
}
