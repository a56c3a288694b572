/*
 * Decodes a component of 2 by 2 samples, then the same bytes with the last one missing and with one more behind them. Then unpacks a
 * picture of two low delay slices and makes samples of its three components, and the same slices with the last byte missing.
 *
 * Build:  cc example.c libkafsillun.a -o example
 * example.txt is what it prints.
 */
#include "kafsillun.h"

#include <inttypes.h>
#include <stdio.h>

/* One level of the transform, wavelet index 3, intra, one codeblock at each level. */
static const KafsillunParameters parameters = {2, 2, 1, 3, 1, {1, 1, 1, 1, 1}, {1, 1, 1, 1, 1}};

/* Four subbands: a length and a quantiser index in a byte, then a byte of data. Then a byte that is not of the component. */
static const uint8_t bytes[] = {0x30, 0x16, 0x30, 0x18, 0x30, 0x70, 0x30, 0x20, 0x00};

static void print_plane(const char *name, const int32_t *plane, size_t width, size_t height)
{
    size_t i;

    printf("%s\n", name);
    for (i = 0; i < width * height; i++) {
        printf("%" PRId32 "%c", plane[i], (i + 1) % width == 0 ? '\n' : ' ');
    }
}

static void print_refusal(KafsillunAnswer answer)
{
    printf("refused %" PRIu32 " place %zu\n", answer.status, answer.place);
}

/* Decodes the first bytes and prints the answer and the planes. */
static void decode_and_print(size_t length)
{
    /* Width and height are multiples of 2^depth, so the padded sizes are the same, and each plane has 4 entries. */
    int32_t coefficients[4], work[4], samples[4];
    KafsillunAnswer answer = kafsillun_decode(parameters, bytes, length, coefficients, 4, work, 4, samples, 4);

    if (answer.status == KAFSILLUN_ACCEPTED) {
        printf("accepted, %zu bytes used, %zu left over\n", answer.place, length - answer.place);
    } else {
        print_refusal(answer);
        if (answer.status <= KAFSILLUN_PLANE_REFUSED) {
            return; /* the planes are as they were: here, not set */
        }
    }
    print_plane("coefficients", coefficients, 2, 2);
    print_plane("samples", samples, 2, 2);
}

/*
 * Luma of 4 by 2 and chroma of 2 by 2 samples, one level of the transform, intra, two slices side by side that have 9 bytes together: the
 * first has 4, the second 5.
 */
static const KafsillunLowDelay picture = {4, 2, 2, 2, 1, 1, 2, 1, 9, 2, {2, 0, 0, 1}};
static const uint8_t slices[] = {0x08, 0xF0, 0x8E, 0x5F, 0x04, 0x53, 0xCA, 0x47, 0x6F};

/* Makes samples of one component of the picture, 4 by 2 at most, and prints both planes. The wavelet, here 3, is stated elsewhere. */
static void synthesise_and_print(const char *name, uint32_t width, uint32_t height, const int32_t *coefficients)
{
    KafsillunParameters component = {0, 0, 0, 3, 0, {0, 0, 0, 0, 0}, {0, 0, 0, 0, 0}};
    int32_t work[8], samples[8];
    size_t area = (size_t)width * height;
    KafsillunAnswer answer;

    component.width = width;
    component.height = height;
    component.depth = picture.depth;
    answer = kafsillun_synthesise(component, coefficients, area, work, area, samples, area);
    print_plane(name, coefficients, width, height);
    if (answer.status == KAFSILLUN_ACCEPTED) {
        print_plane("samples", samples, width, height);
    } else {
        print_refusal(answer);
    }
}

/* Unpacks the first bytes of the slices and prints the answer and, of a picture that is accepted, its components. */
static void unpack_and_print(size_t length)
{
    int32_t luma[8], first_chroma[4], second_chroma[4];
    KafsillunAnswer answer = kafsillun_unpack_low_delay(picture, slices, length, luma, 8, first_chroma, 4, second_chroma, 4);

    if (answer.status != KAFSILLUN_ACCEPTED) {
        print_refusal(answer);
        return;
    }
    printf("accepted, %zu bytes used\n", answer.place);
    synthesise_and_print("luma coefficients", picture.luma_width, picture.luma_height, luma);
    synthesise_and_print("first chroma coefficients", picture.chroma_width, picture.chroma_height, first_chroma);
    synthesise_and_print("second chroma coefficients", picture.chroma_width, picture.chroma_height, second_chroma);
}

int main(void)
{
    decode_and_print(8);
    decode_and_print(7);
    decode_and_print(9);
    unpack_and_print(9);
    unpack_and_print(8);
    return 0;
}
