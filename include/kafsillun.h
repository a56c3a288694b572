/*
 * Kafsillun: a decoder for Dirac wavelet pictures, for one component at a time or for the three of a picture of low delay slices.
 *
 * Four jobs: kafsillun_unpack makes coefficients of bytes, kafsillun_synthesise makes samples of coefficients, kafsillun_decode does
 * both; kafsillun_unpack_low_delay makes the coefficients of luma and of both chroma components of the slices of a picture, and
 * kafsillun_synthesise then makes samples of each. Each is proved to give, for every input, the answer that is written here. The delivery
 * without the unpacker has kafsillun_synthesise alone.
 *
 * What holds of every function
 *
 *   - Any values of the parameters, any bytes and any lengths are allowed. What is out of range is refused, with a status.
 *   - It returns always, calls nothing back, allocates nothing and keeps nothing between calls, so it can be called from several threads
 *     at once. It reads and writes only what it is passed. It needs some 32 KiB of stack, kafsillun_unpack_low_delay some
 *     56 KiB, whatever the size of the component or picture.
 *   - Bytes and planes are passed as a pointer and a length, which counts entries. As of C's own functions, the pointer must be
 *     aligned for its type and that many entries may be read, and written where the pointer is not to const. A plane that is written
 *     overlaps nothing else that is passed. The pointer of an empty plane or of no bytes may be any, NULL too.
 *   - What a plane that is written holds before the call does not matter, unless the call leaves it unchanged.
 */
#ifndef KAFSILLUN_H
#define KAFSILLUN_H

#include <stddef.h>
#include <stdint.h>

/* The delivery without the unpacker has the next line in force. */
/* #define KAFSILLUN_SYNTHESISE_ONLY 1 */

#ifdef __cplusplus
extern "C" {
#endif

/*
 * The parameters of a component.
 *
 * With s = 2^depth, the padded width is the width rounded up to a multiple of s, and the padded height the height.
 *
 * Level 0 of an intra picture is predicted. In every subband the offset that dequantising adds depends on the flag, so a component that is
 * unpacked with the wrong flag may have other values at every level: a magnitude 1 at quantiser index 12 is 12 in an intra picture and 11 in
 * any other.
 */
typedef struct KafsillunParameters {
    uint32_t width;                /* 1 to 4096 */
    uint32_t height;               /* 1 to 4096 */
    uint32_t depth;                /* levels of the transform, 0 to 4 */
    uint32_t wavelet;              /* Dirac's wavelet index, 0 to 6; unpack does not look at it */
    uint32_t intra;                /* 0: no, as in a difference picture; any other number: yes; synthesise does not look at it */
    uint32_t codeblocks_across[5]; /* for each level 0 to depth, 1 to 255; those above are not looked at, and none by synthesise */
    uint32_t codeblocks_down[5];   /* likewise */
} KafsillunParameters;

/*
 * The lengths of the planes, in entries.
 *
 *   coefficients   padded width times padded height, in rows of the padded width. LL stands at the top left. A level n from 1 to depth has
 *                  bands of padded width / 2^(depth - n + 1) columns (bw) and padded height / 2^(depth - n + 1) rows (bh): HL starts at
 *                  column bw, row 0; LH at column 0, row bh; HH at column bw, row bh.
 *   work           padded width times padded height
 *   samples        width times height, in rows of the width
 */

/*
 * What a job answers: a status of the list below, and its place.
 *
 *   status 0        the place is the number of bytes used; of kafsillun_synthesise, 0
 *   status 1 to 5   0
 *   status 6 to 9   the subband, from 0 in stream order: LL, then HL, LH and HH of level 1, of level 2 and on; of
 *                   kafsillun_unpack_low_delay the slice, from 0 in raster order, or the number of slices where prediction gives 9
 *   status 10       the first level, from 1, at which it happened
 *   status 13       0
 *   status 14       the slice
 */
typedef struct KafsillunAnswer {
    uint32_t status;
    size_t place;
} KafsillunAnswer;

/*
 * Every status. No other number is ever given. Checks run in this order, and the first that applies is the answer, but for 13, which comes
 * before 5; 6 to 9 and 14 arise in the order of reading, and the earliest ends the call.
 *
 * After 0 the coefficients are as unpacked (of all but synthesise), the samples as synthesised, and work is all zeros. After 1 to 5 and 13
 * every plane is as it was. After 6 to 10 and 14 every plane that the call may write is all zeros.
 */
enum KafsillunStatus {
    KAFSILLUN_ACCEPTED = 0,                /* accepted */
    KAFSILLUN_SIZE_REFUSED = 1,            /* width or height is outside 1 to 4096 */
    KAFSILLUN_DEPTH_REFUSED = 2,           /* the depth is outside 0 to 4 */
    KAFSILLUN_WAVELET_REFUSED = 3,         /* the wavelet index is outside 0 to 6; of synthesise and decode */
    KAFSILLUN_CODEBLOCKS_REFUSED = 4,      /* a count of a level 0 to depth is outside 1 to 255; of unpack and decode */
    KAFSILLUN_PLANE_REFUSED = 5,           /* a plane does not have exactly the length it needs */
    KAFSILLUN_BYTES_END_EARLY = 6,         /* the bytes end early; 6 to 9 not of synthesise */
    KAFSILLUN_CODE_TOO_LONG = 7,           /* a number code has more than 31 data bits */
    KAFSILLUN_QUANTISER_REFUSED = 8,       /* a quantiser index is above 115 */
    KAFSILLUN_VALUE_OUT_OF_RANGE = 9,      /* an unpacked or predicted value is outside signed 32 bits */
    KAFSILLUN_SYNTHESIS_OUT_OF_RANGE = 10, /* a number assigned in synthesis is outside signed 32 bits; of synthesise and decode */
    KAFSILLUN_SLICES_REFUSED = 13,         /* a slice count, the fraction or a matrix entry is out of range; of unpack_low_delay */
    KAFSILLUN_LUMA_LENGTH_REFUSED = 14     /* a slice states more luma bits than it has left; of unpack_low_delay */
};

/*
 * Makes samples of coefficients, which it only reads.
 *
 * Gives 0, 1, 2, 3, 5 or 10. After 0 the samples are as synthesised and work is all zeros; after 1, 2, 3 and 5 work and samples are as they
 * were; after 10 both are all zeros.
 */
KafsillunAnswer kafsillun_synthesise(
    KafsillunParameters parameters,
    const int32_t *coefficients, size_t coefficients_length,
    int32_t *work, size_t work_length,
    int32_t *samples, size_t samples_length);

#ifndef KAFSILLUN_SYNTHESISE_ONLY

/*
 * Bytes after those used do not matter to the three functions below. Whether some are left over is for the caller to judge, who compares
 * the place of an acceptance with bytes_length. The program that decodes recordings refuses an entry with left-over bytes, by the number
 * 12.
 */

/*
 * Reads the coefficients of a component from its bytes.
 *
 * Gives 0, 1, 2, 4, 5 or 6 to 9. After 0 the coefficients are as unpacked; after 1, 2, 4 and 5 they are as they were; after 6 to 9 they are
 * all zeros.
 */
KafsillunAnswer kafsillun_unpack(
    KafsillunParameters parameters,
    const uint8_t *bytes, size_t bytes_length,
    int32_t *coefficients, size_t coefficients_length);

/*
 * Reads the coefficients of a component from its bytes and makes samples of them.
 *
 * Gives 0 to 10. After 0 the coefficients are as unpacked, the samples as synthesised, and work is all zeros; after 1 to 5 all three planes
 * are as they were; after 6 to 10 all three are all zeros.
 */
KafsillunAnswer kafsillun_decode(
    KafsillunParameters parameters,
    const uint8_t *bytes, size_t bytes_length,
    int32_t *coefficients, size_t coefficients_length,
    int32_t *work, size_t work_length,
    int32_t *samples, size_t samples_length);

/*
 * The parameters of a picture of low delay slices: luma, and two chroma components C1 and C2 of one size.
 *
 * The slices divide every subband of every component into rectangles, in raster order, as codeblocks do. Slice k, from 0, has
 * floor((k + 1) numerator / denominator) - floor(k numerator / denominator) bytes, one at least; N slices have
 * floor(N numerator / denominator) in all, and those are the bytes used. The quantiser index of a subband in a slice is the slice's own
 * less the subband's matrix entry, but not below 0.
 */
typedef struct KafsillunLowDelay {
    uint32_t luma_width;    /* 1 to 4096 */
    uint32_t luma_height;   /* 1 to 4096 */
    uint32_t chroma_width;  /* 1 to 4096, of C1 and of C2 */
    uint32_t chroma_height; /* 1 to 4096, of C1 and of C2 */
    uint32_t depth;         /* levels of the transform, 0 to 4, of all three components */
    uint32_t intra;         /* 0: no, as in a difference picture; any other number: yes */
    uint32_t slices_across; /* 1 to 255 */
    uint32_t slices_down;   /* 1 to 255 */
    uint32_t numerator;     /* of the bytes of a slice: 1 to 65535, not below the denominator */
    uint32_t denominator;   /* likewise: 1 to 65535 */
    uint32_t matrix[13];    /* for each subband 0 to 3 * depth in stream order, 0 to 127; those above are not looked at */
} KafsillunLowDelay;

/*
 * Reads the coefficients of luma, C1 and C2 from the slices of a picture.
 *
 * Each plane has the length of a coefficient plane of its component: padded width times padded height. To make samples of a component,
 * pass its plane to kafsillun_synthesise with parameters of that component: luma_width and luma_height for luma, chroma_width and
 * chroma_height for C1 and for C2, this depth, and the wavelet, which the slices do not state; the intra flag and the codeblock counts may
 * be anything there.
 *
 * Gives 0, 1, 2, 5 to 9, 13 or 14. The parameters and the planes are checked first, in the order 1 (of luma or of chroma), 2, 13, 5. Then
 * each slice in turn: 6 where it has fewer bytes than it should, 14, 8 where the index of any subband is above 115, then 7 and 9 as its
 * values are read. Level 0 of an intra picture is predicted after the last slice. After 0 the three planes are as unpacked; after 1, 2, 13
 * and 5 they are as they were; after 6 to 9 and 14 all three are all zeros.
 */
KafsillunAnswer kafsillun_unpack_low_delay(
    KafsillunLowDelay parameters,
    const uint8_t *bytes, size_t bytes_length,
    int32_t *luma, size_t luma_length,
    int32_t *first_chroma, size_t first_chroma_length,
    int32_t *second_chroma, size_t second_chroma_length);

#endif /* KAFSILLUN_SYNTHESISE_ONLY */

#ifdef __cplusplus
}
#endif

#endif /* KAFSILLUN_H */
