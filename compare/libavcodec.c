/* Frame decoding by libavcodec, and its way to red, green, blue by libswscale,
   beside which the benchmark times the library: a shared object, so that all run
   in one process. */

#include <libavcodec/avcodec.h>
#include <libswscale/swscale.h>
#include <stdio.h>
#include <stdlib.h>
#include <string.h>

/* What the decoder is told beside the BODY: 41 bytes, then the palette. */
enum { EXTRA = 41, COLOURS = 256, MOST = 32 };

struct decoder {
    AVCodecContext *context;
    struct SwsContext *scaler;
    uint32_t palette[COLOURS];
    AVFrame *frame;
    AVPacket *packets[MOST];
    size_t count;
};

static void fail(const char *what)
{
    fprintf(stderr, "libavcodec: %s\n", what);
    exit(1);
}

/* What its demuxer tells the decoder: the data bits of hold-and-modify, which makes 24 bits a pixel, and half-bright. */
static AVCodecContext *open_context(int width, int height, int planes, int compression, int mode,
                                    const uint8_t *palette, int colours)
{
    const AVCodec *codec = avcodec_find_decoder(AV_CODEC_ID_IFF_ILBM);
    AVCodecContext *context = avcodec_alloc_context3(codec);
    int held = mode & 0x800 ? planes - 2 : 0;
    if (!codec || !context || planes > 8 || colours > 3 * COLOURS)
        fail("no decoder");
    context->codec_tag = MKTAG('I', 'L', 'B', 'M');
    context->width = width;
    context->height = height;
    context->bits_per_coded_sample = held ? 24 : planes;
    context->thread_count = 1;
    context->extradata = av_mallocz((size_t)(EXTRA + 3 * COLOURS + AV_INPUT_BUFFER_PADDING_SIZE));
    if (!context->extradata)
        fail("no memory");
    context->extradata_size = EXTRA + colours;
    context->extradata[1] = EXTRA;
    context->extradata[2] = (uint8_t)compression;
    context->extradata[3] = (uint8_t)planes;
    context->extradata[4] = (uint8_t)held;
    context->extradata[5] = (mode & 0x80) != 0;
    memcpy(context->extradata + EXTRA, palette, (size_t)colours);
    if (avcodec_open2(context, codec, NULL) < 0)
        fail("decoder not opened");
    return context;
}

/* A decoder of pictures of one shape, with these bits of CAMG and this palette. It is never closed. */
void *outside_open(int width, int height, int planes, int compression, int mode, const uint8_t *palette,
                   int colours)
{
    struct decoder *decoder = calloc(1, sizeof *decoder);
    if (!decoder)
        fail("no memory");
    decoder->context = open_context(width, height, planes, compression, mode, palette, colours);
    decoder->frame = av_frame_alloc();
    if (!decoder->frame)
        fail("no memory");
    return decoder;
}

/* One more BODY. */
void outside_add(struct decoder *decoder, const uint8_t *body, size_t length)
{
    AVPacket *packet = av_packet_alloc();
    if (!packet || decoder->count == MOST || av_new_packet(packet, (int)length) < 0)
        fail("no memory");
    memcpy(packet->data, body, length);
    decoder->packets[decoder->count++] = packet;
}

/* Decodes a BODY by its number. */
void outside_decode(struct decoder *decoder, size_t number)
{
    if (avcodec_send_packet(decoder->context, decoder->packets[number]) < 0)
        fail("BODY refused");
    if (avcodec_receive_frame(decoder->context, decoder->frame) < 0)
        fail("no frame");
}

/* The colour numbers of what was decoded last. */
void outside_copy(const struct decoder *decoder, uint8_t *colours)
{
    const AVFrame *frame = decoder->frame;
    for (int y = 0; y < frame->height; y++)
        memcpy(colours + (size_t)y * (size_t)frame->width, frame->data[0] + y * frame->linesize[0],
               (size_t)frame->width);
}

/* Decodes a BODY by its number to red, green, blue, three bytes a pixel. The decoder tells the palette with its first
   frame alone. */
void outside_show(struct decoder *decoder, size_t number, uint8_t *pixels)
{
    AVFrame *frame = decoder->frame;
    outside_decode(decoder, number);
    if (!decoder->scaler && frame->format == AV_PIX_FMT_PAL8)
        memcpy(decoder->palette, frame->data[1], sizeof decoder->palette);
    decoder->scaler = sws_getCachedContext(decoder->scaler, frame->width, frame->height, frame->format,
                                           frame->width, frame->height, AV_PIX_FMT_RGB24, SWS_POINT, NULL,
                                           NULL, NULL);
    if (!decoder->scaler)
        fail("no way to red, green, blue");
    const uint8_t *from[4] = {frame->data[0], (const uint8_t *)decoder->palette};
    uint8_t *to[4] = {pixels};
    int lines[4] = {3 * frame->width};
    if (sws_scale(decoder->scaler, from, frame->linesize, 0, frame->height, to, lines) != frame->height)
        fail("no colours");
}
