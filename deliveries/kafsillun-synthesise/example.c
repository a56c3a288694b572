/*
 * Makes samples of coefficients, 2 by 2, then refuses coefficients whose synthesis leaves signed 32 bits.
 *
 * Build:  cc example.c libkafsillun_synthesise.a -o example
 * example.txt is what it prints.
 */
#include "kafsillun.h"

#include <inttypes.h>
#include <stdio.h>

/* One level of the transform, wavelet index 3. Synthesis does not look at the intra flag and the codeblock counts. */
static const KafsillunParameters parameters = {2, 2, 1, 3, 0, {0, 0, 0, 0, 0}, {0, 0, 0, 0, 0}};

/* Makes samples of coefficients and prints the answer and the samples. */
static void synthesise_and_print(const int32_t coefficients[4])
{
    /* Width and height are multiples of 2^depth, so the padded sizes are the same, and each plane has 4 entries. */
    int32_t work[4], samples[4];
    KafsillunAnswer answer = kafsillun_synthesise(parameters, coefficients, 4, work, 4, samples, 4);

    if (answer.status == KAFSILLUN_ACCEPTED) {
        printf("accepted\n");
    } else {
        printf("refused %" PRIu32 " place %zu\n", answer.status, answer.place);
        if (answer.status <= KAFSILLUN_PLANE_REFUSED) {
            return; /* the planes are as they were: here, not set */
        }
    }
    printf("%" PRId32 " %" PRId32 "\n%" PRId32 " %" PRId32 "\n", samples[0], samples[1], samples[2], samples[3]);
}

int main(void)
{
    const int32_t fine[4] = {10, 4, -2, 1};
    const int32_t too_large[4] = {INT32_MAX, 0, INT32_MIN, 0};

    synthesise_and_print(fine);
    synthesise_and_print(too_large);
    return 0;
}
