// The same by Intel's ISA-L, for comparison: the weights and its tables are made before the clock starts. The argument says
// which of its calls: `sse` for ec_encode_data_sse, `best` for ec_encode_data. One a process, since a call that leaves the
// upper halves of vector registers in use slows the other.
#include <isa-l.h>
#include <stdio.h>
#include <stdlib.h>
#include <string.h>
#include <time.h>

enum { BLOCK = 4096 };

typedef void encoder(int, int, int, unsigned char *, unsigned char **, unsigned char **);

static unsigned char weight(int m, const unsigned char *points, int j, int x) {
    unsigned char numerator = 1, denominator = 1;
    for (int i = 0; i < m; i++)
        if (i != j) {
            numerator = gf_mul(numerator, x ^ points[i]);
            denominator = gf_mul(denominator, points[j] ^ points[i]);
        }
    return gf_mul(numerator, gf_inv(denominator));
}

static double now(void) {
    struct timespec t;
    clock_gettime(CLOCK_MONOTONIC, &t);
    return t.tv_sec + t.tv_nsec * 1e-9;
}

// The blocks at the points from `from` up to `to`, of blocks at m points: a copy of one that is there, or a sum.
static void run(const char *name, encoder *encode, int m, const unsigned char *points, int from, int to, long stripes, int rounds, unsigned char *data) {
    static unsigned char out[32][BLOCK];
    unsigned char weights[32 * 32], tables[32 * 32 * 32], *blocks[32], *sums[32], sum = 0;
    int place[32], rows = 0;
    for (int x = from; x < to; x++) {
        unsigned char *found = memchr(points, x, m);
        place[x - from] = found ? found - points : -1;
        if (found)
            continue;
        for (int j = 0; j < m; j++)
            weights[rows * m + j] = weight(m, points, j, x);
        sums[rows++] = out[x - from];
    }
    ec_init_tables(m, rows, weights, tables);
    double start = now();
    for (int round = 0; round < rounds; round++)
        for (long s = 0; s < stripes; s++) {
            for (int j = 0; j < m; j++)
                blocks[j] = data + (s * m + j) * BLOCK;
            encode(BLOCK, m, rows, tables, blocks, sums);
            for (int k = 0; k < to - from; k++)
                if (place[k] >= 0)
                    memcpy(out[k], blocks[place[k]], BLOCK);
            __asm__ volatile("" ::: "memory");
            for (int k = 0; k < to - from; k++)
                sum += out[k][0];
        }
    printf("%s: %.0f bytes a second (sum %d)\n", name, (double)rounds * stripes * m * BLOCK / (now() - start), sum);
}

static void measure(encoder *encode, int m, int n, long stripes, int rounds) {
    long size = stripes * m * BLOCK;
    unsigned char *data = malloc(size), points[32];
    for (long i = 0; i < size; i++)
        data[i] = i % 251;
    for (int k = 0; k < n; k++)
        points[k] = k;
    printf("(%d, %d), %ld stripes\n", m, n, stripes);
    run("encode", encode, m, points, m, n, stripes, rounds, data);
    run("decode", encode, m, points + n - m, 0, m, stripes, rounds, data);
    free(data);
}

int main(int count, char **words) {
    encoder *encode = count > 1 && strcmp(words[1], "sse") == 0 ? ec_encode_data_sse : ec_encode_data;
    measure(encode, 4, 6, 16, 1025);
    measure(encode, 4, 6, 16384, 1);
    measure(encode, 10, 14, 6, 1025);
    measure(encode, 10, 14, 6553, 1);
    return 0;
}
