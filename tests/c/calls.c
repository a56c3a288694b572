/*
 * Calls the archive as C does, with a distinct value in every parameter, and compares what comes back: nothing but this checks the
 * header's declarations against the proved functions. Planes have exactly their lengths and are not set where the call sets them, so that
 * valgrind sees a read or a write beside them. Prints how many comparisons passed; exit status 1 where one failed.
 */
#include "kafsillun.h"

#include <inttypes.h>
#include <pthread.h>
#include <stdio.h>
#include <stdlib.h>
#include <string.h>

static int passed = 0;
static int failed = 0;

static void expect(int holds, const char *what)
{
    if (holds) {
        passed++;
    } else {
        failed++;
        printf("not so: %s\n", what);
    }
}

static void expect_answer(KafsillunAnswer answer, uint32_t status, size_t place, const char *what)
{
    if (answer.status != status || answer.place != place) {
        printf("%s: status %" PRIu32 " place %zu\n", what, answer.status, answer.place);
    }
    expect(answer.status == status && answer.place == place, what);
}

/* A plane of its own block, not set. */
static int32_t *new_plane(size_t length)
{
    int32_t *plane = (int32_t *)malloc(length * sizeof *plane);

    if (plane == NULL) {
        abort();
    }
    return plane;
}

static void fill(int32_t *plane, size_t length, int32_t value)
{
    size_t i;

    for (i = 0; i < length; i++) {
        plane[i] = value;
    }
}

static int all(const int32_t *plane, size_t length, int32_t value)
{
    size_t i;

    for (i = 0; i < length; i++) {
        if (plane[i] != value) {
            return 0;
        }
    }
    return 1;
}

/* 37 by 21 at depth 2: padded 40 by 24. */
enum { AREA = 40 * 24, SAMPLES = 37 * 21 };
static const KafsillunParameters distinct = {37, 21, 2, 1, 0, {2, 3, 4, 5, 6}, {7, 8, 9, 10, 11}};

/* One codeblock a level, no prediction. */
static KafsillunParameters plain(uint32_t width, uint32_t height, uint32_t depth, uint32_t wavelet)
{
    KafsillunParameters p = {0, 0, 0, 0, 0, {1, 1, 1, 1, 1}, {1, 1, 1, 1, 1}};

    p.width = width;
    p.height = height;
    p.depth = depth;
    p.wavelet = wavelet;
    return p;
}

static KafsillunAnswer synthesise(KafsillunParameters p, size_t coefficients_length, size_t work_length, size_t samples_length)
{
    int32_t *coefficients = new_plane(coefficients_length);
    int32_t *work = new_plane(work_length);
    int32_t *samples = new_plane(samples_length);
    KafsillunAnswer answer;

    fill(coefficients, coefficients_length, 0);
    answer = kafsillun_synthesise(p, coefficients, coefficients_length, work, work_length, samples, samples_length);
    free(coefficients);
    free(work);
    free(samples);
    return answer;
}

static void synthesise_sees_each_parameter(void)
{
    KafsillunParameters p = distinct;
    int32_t coefficients[8] = {5, 6, 0, 0, 0, 0, 0, 0};
    int32_t work[8], samples[3];

    expect_answer(synthesise(p, AREA, AREA, SAMPLES), 0, 0, "synthesise: accepted");
    expect_answer(synthesise(p, AREA - 1, AREA, SAMPLES), 5, 0, "synthesise: length of the coefficients");
    expect_answer(synthesise(p, AREA, AREA + 1, SAMPLES), 5, 0, "synthesise: length of work");
    expect_answer(synthesise(p, AREA, AREA, SAMPLES - 1), 5, 0, "synthesise: length of the samples");
    expect_answer(kafsillun_synthesise(p, NULL, 0, NULL, 0, NULL, 0), 5, 0, "synthesise: no planes");
    p.wavelet = 7;
    expect_answer(synthesise(p, AREA, AREA, SAMPLES), 3, 0, "synthesise: wavelet");
    p.depth = UINT32_MAX;
    expect_answer(synthesise(p, AREA, AREA, SAMPLES), 2, 0, "synthesise: depth");
    p.height = 4097;
    expect_answer(synthesise(p, AREA, AREA, SAMPLES), 1, 0, "synthesise: height");
    p = distinct;
    p.width = 0;
    expect_answer(synthesise(p, AREA, AREA, SAMPLES), 1, 0, "synthesise: width");

    /* Three columns and one row, not one and three: each entry of LL becomes two by two. */
    expect_answer(kafsillun_synthesise(plain(3, 1, 1, 3), coefficients, 8, work, 8, samples, 3), 0, 0, "synthesise: 3 by 1");
    expect(samples[0] == 5 && samples[1] == 5 && samples[2] == 6, "synthesise: samples of 3 by 1");
    expect(all(work, 8, 0), "synthesise: work of 3 by 1");
    /* Wavelet 4 is 3 with a shift. */
    expect_answer(kafsillun_synthesise(plain(3, 1, 1, 4), coefficients, 8, work, 8, samples, 3), 0, 0, "synthesise: wavelet 4");
    expect(samples[0] == 3 && samples[1] == 3 && samples[2] == 3, "synthesise: samples of wavelet 4");

    coefficients[0] = INT32_MAX;
    coefficients[4] = INT32_MIN;
    expect_answer(kafsillun_synthesise(plain(3, 1, 1, 3), coefficients, 8, work, 8, samples, 3), 10, 1, "synthesise: out of range");
    expect(all(work, 8, 0) && all(samples, 3, 0), "synthesise: zeros after 10");
    fill(work, 8, 77);
    fill(samples, 3, 78);
    expect_answer(kafsillun_synthesise(plain(3, 1, 1, 9), coefficients, 8, work, 8, samples, 3), 3, 0, "synthesise: wavelet 9");
    expect(all(work, 8, 77) && all(samples, 3, 78), "synthesise: unchanged after 3");
}

/* Samples of coefficients that start at a number of the thread's own. */
static KafsillunAnswer synthesise_from(int32_t first, int32_t *samples)
{
    int32_t *coefficients = new_plane(AREA);
    int32_t *work = new_plane(AREA);
    KafsillunAnswer answer;
    int32_t i;

    for (i = 0; i < AREA; i++) {
        coefficients[i] = (first + i * 37) % 251;
    }
    answer = kafsillun_synthesise(distinct, coefficients, AREA, work, AREA, samples, SAMPLES);
    free(coefficients);
    free(work);
    return answer;
}

/* A thread's number, the samples that it must get every time, and whether it did. */
typedef struct {
    int32_t number;
    int32_t samples[SAMPLES];
    int fine;
} Turn;

static void *synthesise_in_thread(void *argument)
{
    Turn *turn = (Turn *)argument;
    int32_t *samples = new_plane(SAMPLES);
    int i;

    for (i = 0; i < 50; i++) {
        if (synthesise_from(turn->number, samples).status != 0 || memcmp(samples, turn->samples, sizeof turn->samples) != 0) {
            turn->fine = 0;
        }
    }
    free(samples);
    return NULL;
}

/* Four threads at once, each with a stack of so many KiB. */
static void threads_agree(void *(*job)(void *), int stack, const char *what)
{
    enum { THREADS = 4 };
    static Turn turns[THREADS];
    pthread_t threads[THREADS];
    pthread_attr_t attributes;
    int started = 0;
    int i;

    for (i = 0; i < THREADS; i++) {
        turns[i].number = 10 * i;
        turns[i].fine = 1;
        expect_answer(synthesise_from(turns[i].number, turns[i].samples), 0, 0, what);
    }
    pthread_attr_init(&attributes);
    pthread_attr_setstacksize(&attributes, (size_t)stack * 1024);
    for (i = 0; i < THREADS; i++) {
        if (pthread_create(&threads[i], &attributes, job, &turns[i]) != 0) {
            break;
        }
        started++;
    }
    for (i = 0; i < started; i++) {
        pthread_join(threads[i], NULL);
    }
    pthread_attr_destroy(&attributes);
    for (i = 0; i < THREADS; i++) {
        expect(i < started && turns[i].fine, what);
    }
}

#ifndef KAFSILLUN_SYNTHESISE_ONLY

/* As many subbands of length 0 as any depth has. */
static const uint8_t no_data[13] = {0x80, 0x80, 0x80, 0x80, 0x80, 0x80, 0x80, 0x80, 0x80, 0x80, 0x80, 0x80, 0x80};

static KafsillunAnswer unpack(KafsillunParameters p, size_t length)
{
    int32_t *coefficients = new_plane(length);
    KafsillunAnswer answer = kafsillun_unpack(p, no_data, sizeof no_data, coefficients, length);

    free(coefficients);
    return answer;
}

static void unpack_sees_each_parameter(void)
{
    KafsillunParameters p = distinct;
    const uint8_t two_ones[2] = {0x30, 0x22};
    const uint8_t flag_one_flag[2] = {0x30, 0x17};
    const uint8_t one_at_index_12[3] = {0x28, 0xC0, 0x20};
    int32_t values[2];
    int level;

    expect_answer(unpack(p, AREA), 0, 7, "unpack: accepted");
    expect_answer(unpack(p, AREA + 1), 5, 0, "unpack: length of the coefficients");
    expect_answer(kafsillun_unpack(p, NULL, 0, NULL, 0), 5, 0, "unpack: no plane");
    p.wavelet = 99;
    expect_answer(unpack(p, AREA), 0, 7, "unpack: wavelet not looked at");
    for (level = 0; level < 5; level++) {
        uint32_t status = level <= 2 ? 4 : 0;

        p = distinct;
        p.codeblocks_across[level] = 256;
        expect_answer(unpack(p, AREA), status, status == 0 ? 7 : 0, "unpack: codeblocks across");
        p = distinct;
        p.codeblocks_down[level] = 0;
        expect_answer(unpack(p, AREA), status, status == 0 ? 7 : 0, "unpack: codeblocks down");
    }
    p = distinct;
    p.depth = 5;
    expect_answer(unpack(p, AREA), 2, 0, "unpack: depth");

    /* Two across: a flag, 1, a flag that leaves the second codeblock zero. */
    p = plain(2, 1, 0, 0);
    p.codeblocks_across[0] = 2;
    expect_answer(kafsillun_unpack(p, flag_one_flag, 2, values, 2), 0, 2, "unpack: two codeblocks across");
    expect(values[0] == 1 && values[1] == 0, "unpack: values of two codeblocks across");

    p = plain(2, 1, 0, 0);
    expect_answer(kafsillun_unpack(p, two_ones, 2, values, 2), 0, 2, "unpack: not intra");
    expect(values[0] == 1 && values[1] == 1, "unpack: values that are not predicted");
    p.intra = 0x80000000;
    expect_answer(kafsillun_unpack(p, two_ones, 2, values, 2), 0, 2, "unpack: intra");
    expect(values[0] == 1 && values[1] == 2, "unpack: predicted values");

    p = plain(1, 1, 0, 0);
    expect_answer(kafsillun_unpack(p, one_at_index_12, 3, values, 1), 0, 3, "unpack: index 12, not intra");
    expect(values[0] == 11, "unpack: a value that is not of an intra picture");
    p.intra = 1;
    expect_answer(kafsillun_unpack(p, one_at_index_12, 3, values, 1), 0, 3, "unpack: index 12, intra");
    expect(values[0] == 12, "unpack: a value of an intra picture");
}

/* The three planes that a call may write, of 8 entries at most, each of its own block. */
typedef struct {
    size_t length[3];
    int32_t *plane[3];
} Planes;

static Planes new_planes(size_t first, size_t second, size_t third)
{
    Planes planes = {{0, 0, 0}, {NULL, NULL, NULL}};
    int i;

    planes.length[0] = first;
    planes.length[1] = second;
    planes.length[2] = third;
    for (i = 0; i < 3; i++) {
        planes.plane[i] = new_plane(planes.length[i]);
        fill(planes.plane[i], planes.length[i], 76 + i);
    }
    return planes;
}

/* Whether new planes have what the status asks for, after 0 what is given here; and frees them. */
static void expect_planes(Planes planes, uint32_t status, const int32_t expected[3][8], const char *what)
{
    int is_unchanged = status <= 5 || status == 13;
    int i;

    for (i = 0; i < 3; i++) {
        if (status == 0) {
            expect(memcmp(planes.plane[i], expected[i], planes.length[i] * sizeof expected[i][0]) == 0, what);
        } else {
            expect(all(planes.plane[i], planes.length[i], is_unchanged ? 76 + i : 0), what);
        }
        free(planes.plane[i]);
    }
}

/* Decodes bytes over planes of 4 entries that have other numbers, and says whether all have what the status asks for. */
static void decode_owes(KafsillunParameters p, const uint8_t *bytes, size_t length, uint32_t status, size_t place, const char *what)
{
    static const int32_t expected[3][8] = {{10, 4, -2, 1}, {0, 0, 0, 0}, {9, 12, 7, 11}};
    Planes planes = new_planes(4, 4, 4);

    expect_answer(kafsillun_decode(p, bytes, length, planes.plane[0], 4, planes.plane[1], 4, planes.plane[2], 4), status, place, what);
    expect_planes(planes, status, expected, what);
}

static void decode_gives_each_status(void)
{
    const uint8_t whole[8] = {0x30, 0x16, 0x30, 0x18, 0x30, 0x70, 0x30, 0x20};
    const uint8_t long_code[9] = {0x80, 0, 0, 0, 0, 0, 0, 0, 0};
    const uint8_t index_116[4] = {0x80, 0x80, 0x2A, 0x23};
    const uint8_t large[6] = {0x80, 0x80, 0x80, 0x2A, 0x21, 0x06};
    const uint8_t large_sum[8] = {0x2A, 0x21, 0x1B, 0x80, 0x2A, 0x21, 0x1F, 0x80};
    KafsillunParameters p = plain(2, 2, 1, 3);

    p.intra = 1;
    decode_owes(p, whole, 8, 0, 8, "decode: 0");
    decode_owes(plain(4097, 2, 1, 3), whole, 8, 1, 0, "decode: 1");
    decode_owes(plain(2, 2, 5, 3), whole, 8, 2, 0, "decode: 2");
    decode_owes(plain(2, 2, 1, 7), whole, 8, 3, 0, "decode: 3");
    p.codeblocks_down[1] = 256;
    decode_owes(p, whole, 8, 4, 0, "decode: 4");
    decode_owes(plain(3, 2, 1, 3), whole, 8, 5, 0, "decode: 5");
    p = plain(2, 2, 1, 3);
    decode_owes(p, NULL, 0, 6, 0, "decode: 6, no bytes");
    decode_owes(p, whole, 5, 6, 2, "decode: 6");
    decode_owes(p, long_code, 9, 7, 1, "decode: 7");
    decode_owes(p, index_116, 4, 8, 2, "decode: 8");
    decode_owes(p, large, 6, 9, 3, "decode: 9");
    decode_owes(p, large_sum, 8, 10, 1, "decode: 10");
    expect_answer(kafsillun_decode(p, whole, 8, NULL, 0, NULL, 0, NULL, 0), 5, 0, "decode: no planes");
}

static void decode_sees_each_length(void)
{
    static const size_t lengths[4][3] = {
        {AREA, AREA, SAMPLES}, {AREA + 1, AREA, SAMPLES}, {AREA, AREA - 1, SAMPLES}, {AREA, AREA, SAMPLES + 1}};
    int i;

    for (i = 0; i < 4; i++) {
        int32_t *coefficients = new_plane(lengths[i][0]);
        int32_t *work = new_plane(lengths[i][1]);
        int32_t *samples = new_plane(lengths[i][2]);

        expect_answer(kafsillun_decode(distinct, no_data, 7, coefficients, lengths[i][0], work, lengths[i][1], samples, lengths[i][2]),
                      i == 0 ? 0 : 5, i == 0 ? 7 : 0, "decode: lengths");
        free(coefficients);
        free(work);
        free(samples);
    }
}

/* Luma of 4 by 2, chroma of 2 by 2, two slices side by side; and the coefficients of luma, C1 and C2. */
static const KafsillunLowDelay picture = {4, 2, 2, 2, 1, 1, 2, 1, 9, 2, {2, 0, 0, 1, 0, 0, 0, 0, 0, 0, 0, 0, 0}};
static const uint8_t slices[9] = {0x08, 0xF0, 0x8E, 0x5F, 0x04, 0x53, 0xCA, 0x47, 0x6F};
static const int32_t of_picture[3][8] = {{5, 3, -3, 0, 0, 2, 3, 0}, {1, 0, 0, 0}, {-1, 4, 0, 0}};

/* Unpacks bytes over planes of 8, 4 and 4 entries that have other numbers, and says whether all have what the status asks for. */
static void unpack_low_delay_owes(KafsillunLowDelay p, const uint8_t *bytes, size_t length, uint32_t status, size_t place, const char *what)
{
    Planes planes = new_planes(8, 4, 4);

    expect_answer(kafsillun_unpack_low_delay(p, bytes, length, planes.plane[0], 8, planes.plane[1], 4, planes.plane[2], 4), status, place, what);
    expect_planes(planes, status, of_picture, what);
}

static void unpack_low_delay_gives_each_status(void)
{
    /* One slice of 11 bytes whose first luma value is 2^32, of 32 data bits; is 2^31; is 2^31 - 1, with 1 beside it. */
    static const uint8_t long_code[11] = {0x01, 0x08, 0, 0, 0, 0, 0, 0, 0, 0x06, 0xFF};
    static const uint8_t large[11] = {0x01, 0, 0, 0, 0, 0, 0, 0, 0, 0x1B, 0xFF};
    static const uint8_t large_sum[11] = {0x01, 0x10, 0, 0, 0, 0, 0, 0, 0, 0x08, 0xBF};
    uint8_t changed[9];
    KafsillunLowDelay p = picture;

    unpack_low_delay_owes(p, slices, 9, 0, 9, "unpack_low_delay: 0");
    p.intra = 0x80000000;
    unpack_low_delay_owes(p, slices, 9, 0, 9, "unpack_low_delay: intra");
    p.matrix[4] = 128;
    unpack_low_delay_owes(p, slices, 9, 0, 9, "unpack_low_delay: matrix entry of no subband");
    unpack_low_delay_owes(picture, slices, 3, 6, 0, "unpack_low_delay: 6 in slice 0");
    unpack_low_delay_owes(picture, slices, 8, 6, 1, "unpack_low_delay: 6 in slice 1");
    unpack_low_delay_owes(picture, NULL, 0, 6, 0, "unpack_low_delay: 6, no bytes");
    memcpy(changed, slices, sizeof changed);
    changed[4] = 0xE8;
    unpack_low_delay_owes(picture, changed, 9, 8, 1, "unpack_low_delay: 8");
    changed[4] = 0x05;
    changed[5] = 0xFF;
    unpack_low_delay_owes(picture, changed, 9, 14, 1, "unpack_low_delay: 14");

    p = picture;
    p.slices_across = 1;
    p.numerator = 11;
    p.denominator = 1;
    unpack_low_delay_owes(p, long_code, 11, 7, 0, "unpack_low_delay: 7");
    unpack_low_delay_owes(p, large, 11, 9, 0, "unpack_low_delay: 9");
    unpack_low_delay_owes(p, large_sum, 11, 9, 1, "unpack_low_delay: 9 in prediction");
}

static void unpack_low_delay_sees_each_parameter(void)
{
    static const size_t lengths[6][3] = {{7, 4, 4}, {9, 4, 4}, {8, 3, 4}, {8, 5, 4}, {8, 4, 3}, {8, 4, 5}};
    KafsillunLowDelay p = picture;
    int32_t planes[3][9];
    int i;

    /* From the last check to the first: each comes before those above it. */
    for (i = 0; i < 6; i++) {
        const size_t *length = lengths[i];

        expect_answer(kafsillun_unpack_low_delay(p, slices, 9, planes[0], length[0], planes[1], length[1], planes[2], length[2]), 5, 0,
                      "unpack_low_delay: lengths");
    }
    expect_answer(kafsillun_unpack_low_delay(p, slices, 9, NULL, 0, NULL, 0, NULL, 0), 5, 0, "unpack_low_delay: no planes");
    p.luma_width = 5;
    unpack_low_delay_owes(p, slices, 9, 5, 0, "unpack_low_delay: luma width");
    p.luma_width = 4;
    p.luma_height = 3;
    unpack_low_delay_owes(p, slices, 9, 5, 0, "unpack_low_delay: luma height");
    p.luma_height = 2;
    p.chroma_width = 3;
    unpack_low_delay_owes(p, slices, 9, 5, 0, "unpack_low_delay: chroma width");
    p.chroma_width = 2;
    p.chroma_height = 3;
    unpack_low_delay_owes(p, slices, 9, 5, 0, "unpack_low_delay: chroma height");
    for (i = 0; i < 4; i++) {
        p.matrix[i] = 128;
        unpack_low_delay_owes(p, slices, 9, 13, 0, "unpack_low_delay: matrix entry");
        p.matrix[i] = 127;
    }
    p.denominator = 10;
    unpack_low_delay_owes(p, slices, 9, 13, 0, "unpack_low_delay: numerator below the denominator");
    p.denominator = 0;
    unpack_low_delay_owes(p, slices, 9, 13, 0, "unpack_low_delay: denominator");
    p.denominator = 1;
    p.numerator = 65536;
    unpack_low_delay_owes(p, slices, 9, 13, 0, "unpack_low_delay: numerator");
    p.numerator = 1;
    p.slices_down = 256;
    unpack_low_delay_owes(p, slices, 9, 13, 0, "unpack_low_delay: slices down");
    p.slices_down = 1;
    p.slices_across = 0;
    unpack_low_delay_owes(p, slices, 9, 13, 0, "unpack_low_delay: slices across");
    p.depth = 5;
    unpack_low_delay_owes(p, slices, 9, 2, 0, "unpack_low_delay: depth");
    p.chroma_height = 4097;
    unpack_low_delay_owes(p, slices, 9, 1, 0, "unpack_low_delay: 1");
}

/* What was unpacked is passed on with the size of its component. */
static void components_of_a_picture_are_synthesised(void)
{
    int32_t luma[8], first[4], second[4], work[8], samples[8];

    expect_answer(kafsillun_unpack_low_delay(picture, slices, 9, luma, 8, first, 4, second, 4), 0, 9, "a picture: unpacked");
    expect_answer(kafsillun_synthesise(plain(4, 2, 1, 3), luma, 8, work, 8, samples, 8), 0, 0, "a picture: luma");
    expect(samples[0] == 7 && samples[3] == 2 && samples[4] == 6 && samples[7] == 4, "a picture: samples of luma");
    expect_answer(kafsillun_synthesise(plain(2, 2, 1, 3), first, 4, work, 4, samples, 4), 0, 0, "a picture: C1");
    expect(all(samples, 4, 1), "a picture: samples of C1");
    expect_answer(kafsillun_synthesise(plain(2, 2, 1, 3), second, 4, work, 4, samples, 4), 0, 0, "a picture: C2");
    expect(samples[0] == -3 && samples[1] == 1 && samples[2] == -3 && samples[3] == 1, "a picture: samples of C2");
}

static void *decode_in_thread(void *argument)
{
    Turn *turn = (Turn *)argument;
    const uint8_t bytes[8] = {0x30, 0x16, 0x30, 0x18, 0x30, 0x70, 0x30, 0x20};
    KafsillunParameters p = plain(2, 2, 1, 3);
    int i;

    /* every other thread with prediction, which changes nothing where LL is one value */
    p.intra = (uint32_t)turn->number % 20;
    for (i = 0; i < 1000; i++) {
        int32_t coefficients[4], work[4], samples[4];
        KafsillunAnswer answer = kafsillun_decode(p, bytes, 8, coefficients, 4, work, 4, samples, 4);

        if (answer.status != 0 || answer.place != 8 || samples[0] != 9 || samples[1] != 12 || samples[2] != 7 || samples[3] != 11) {
            turn->fine = 0;
        }
    }
    return NULL;
}

static void *unpack_low_delay_in_thread(void *argument)
{
    Turn *turn = (Turn *)argument;
    int i;

    for (i = 0; i < 1000; i++) {
        int32_t luma[8], first[4], second[4];
        KafsillunAnswer answer = kafsillun_unpack_low_delay(picture, slices, 9, luma, 8, first, 4, second, 4);

        if (answer.status != 0 || answer.place != 9 || memcmp(luma, of_picture[0], sizeof luma) != 0
            || memcmp(first, of_picture[1], sizeof first) != 0 || memcmp(second, of_picture[2], sizeof second) != 0) {
            turn->fine = 0;
        }
    }
    return NULL;
}

#endif

int main(void)
{
    synthesise_sees_each_parameter();
    threads_agree(synthesise_in_thread, 48, "synthesise: threads");
#ifndef KAFSILLUN_SYNTHESISE_ONLY
    unpack_sees_each_parameter();
    decode_gives_each_status();
    decode_sees_each_length();
    threads_agree(decode_in_thread, 48, "decode: threads");
    unpack_low_delay_gives_each_status();
    unpack_low_delay_sees_each_parameter();
    components_of_a_picture_are_synthesised();
    threads_agree(unpack_low_delay_in_thread, 64, "unpack_low_delay: threads");
#endif
    printf("%d passed, %d failed\n", passed, failed);
    return failed != 0;
}
