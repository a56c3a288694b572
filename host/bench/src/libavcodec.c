/*
 * libavcodec's Dirac decoder on one packet: a sequence header and a picture, which is decoded again and again under a new picture number,
 * as the next picture of the sequence. One thread.
 */
#include <stdint.h>
#include <stdlib.h>
#include <string.h>

#include <libavcodec/avcodec.h>
#include <libavutil/cpu.h>
#include <libavutil/pixdesc.h>

typedef struct BenchDecoder {
    AVCodecContext *context;
    AVPacket *packet;
    AVFrame *frame;
    size_t number_offset; /* of the picture number, in the packet */
    uint32_t number;     /* of the next picture */
    int simd;
} BenchDecoder;

void bench_close(BenchDecoder *decoder);

/* The flags hold for the whole process, and the decoder looks at them again in every picture. */
static void set_cpu_flags(const BenchDecoder *decoder)
{
    av_force_cpu_flags(decoder->simd ? -1 : 0);
}

/* A decoder of a packet, or NULL. */
BenchDecoder *bench_open(const uint8_t *bytes, size_t length, size_t number_offset, int simd)
{
    const AVCodec *codec = avcodec_find_decoder(AV_CODEC_ID_DIRAC);
    BenchDecoder *decoder = calloc(1, sizeof *decoder);
    if (!codec || !decoder || length > INT32_MAX || length < 4 || number_offset > length - 4) {
        free(decoder);
        return NULL;
    }
    decoder->number_offset = number_offset;
    decoder->simd = simd;
    decoder->context = avcodec_alloc_context3(codec);
    decoder->packet = av_packet_alloc();
    decoder->frame = av_frame_alloc();
    set_cpu_flags(decoder);
    if (decoder->context)
        decoder->context->thread_count = 1;
    if (!decoder->context || !decoder->packet || !decoder->frame || av_new_packet(decoder->packet, (int)length) < 0
        || avcodec_open2(decoder->context, codec, NULL) < 0) {
        bench_close(decoder);
        return NULL;
    }
    memcpy(decoder->packet->data, bytes, length);
    return decoder;
}

void bench_close(BenchDecoder *decoder)
{
    avcodec_free_context(&decoder->context);
    av_packet_free(&decoder->packet);
    av_frame_free(&decoder->frame);
    free(decoder);
}

/* Decodes the picture once more; answers 0, or libavcodec's error. */
int bench_decode(BenchDecoder *decoder)
{
    uint8_t *number = decoder->packet->data + decoder->number_offset;
    int error;
    for (int k = 0; k < 4; k++)
        number[k] = (uint8_t)(decoder->number >> (24 - 8 * k));
    decoder->number++;
    set_cpu_flags(decoder);
    av_frame_unref(decoder->frame);
    error = avcodec_send_packet(decoder->context, decoder->packet);
    return error < 0 ? error : avcodec_receive_frame(decoder->context, decoder->frame);
}

/* Whether a picture has samples of 8 bits. */
static int is_of_bytes(const AVFrame *frame)
{
    return frame->format == AV_PIX_FMT_YUV444P || frame->format == AV_PIX_FMT_YUV422P || frame->format == AV_PIX_FMT_YUV420P;
}

/* The last picture's samples of a component, as libavcodec gives them; answers 0, or -1 if the component has another size or format. */
int bench_samples(const BenchDecoder *decoder, int component, int width, int height, int32_t *samples)
{
    const AVFrame *frame = decoder->frame;
    int across = 0, down = 0;
    if (!is_of_bytes(frame) || (component > 0 && av_pix_fmt_get_chroma_sub_sample(frame->format, &across, &down) < 0))
        return -1;
    if (frame->width >> across != width || frame->height >> down != height)
        return -1;
    for (int y = 0; y < height; y++) {
        const uint8_t *row = frame->data[component] + (ptrdiff_t)y * frame->linesize[component];
        for (int x = 0; x < width; x++)
            samples[(size_t)y * width + x] = row[x];
    }
    return 0;
}

/* The library's version, as major, minor and micro in a number's bytes. */
unsigned bench_version(void)
{
    return avcodec_version();
}
