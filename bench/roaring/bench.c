// Reading and writing a bitmap of a million members: the proved code (by roaring_abi_c) beside CRoaring, in turns in
// one run. All members lie below 2^32, so the 64-bit bitmap has one bucket, and what CRoaring reads and writes is that bucket.
#include <roaring/roaring.h>
#include <stdbool.h>
#include <stdint.h>
#include <stdio.h>
#include <stdlib.h>
#include <string.h>
#include <time.h>

bool roaring_is_bitmap(const uint8_t *s, size_t len);
uint64_t roaring_sum(const uint8_t *s, size_t len);
size_t roaring_length(const uint64_t *t, size_t len, size_t n, uint32_t k);
size_t roaring_write(uint8_t *out, size_t room, const uint64_t *t, size_t len, size_t n, uint32_t k);

enum { N = 1000000, TURNS = 51, WAYS = 8 };

// processor time, so that what else the machine does counts little
static double now(void) {
    struct timespec t;
    clock_gettime(CLOCK_PROCESS_CPUTIME_ID, &t);
    return t.tv_sec * 1e6 + t.tv_nsec * 1e-3;
}

static int order(const void *a, const void *b) {
    double x = *(const double *)a, y = *(const double *)b;
    return x < y ? -1 : x > y;
}

static void same(bool ok, const char *what) {
    if (!ok) { printf("differs: %s\n", what); exit(1); }
}

static bool add(uint32_t x, void *sum) {
    *(uint64_t *)sum += x;
    return true;
}

static void run(const char *name, uint32_t step) {
    uint32_t *v = malloc(N * sizeof *v);
    uint64_t *t = malloc(2 * N * sizeof *t), sum = 0;
    for (uint32_t i = 0; i < N; i++) {
        v[i] = i * step;
        t[2 * i] = v[i];
        t[2 * i + 1] = 2;
        sum += v[i];
    }
    roaring_bitmap_t *r = roaring_bitmap_of_ptr(N, v);
    size_t size = roaring_bitmap_portable_size_in_bytes(r), len = roaring_length(t, 2 * N, N, 0);
    same(len == size + 12, "length");
    uint8_t *ours = malloc(len), *theirs = malloc(size);
    static double took[WAYS][TURNS];
    for (int i = 0; i < TURNS; i++) {
        double at[WAYS + 1];
        at[0] = now();
        size_t wrote = roaring_write(ours, len, t, 2 * N, N, 0);
        at[1] = now();
        size_t put = roaring_bitmap_portable_serialize(r, (char *)theirs);
        at[2] = now();
        roaring_bitmap_t *built = roaring_bitmap_of_ptr(N, v);
        put = roaring_bitmap_portable_serialize(built, (char *)theirs);
        at[3] = now();
        bool good = roaring_is_bitmap(ours, len);
        at[4] = now();
        roaring_bitmap_t *back = roaring_bitmap_portable_deserialize_safe((char *)theirs, size);
        at[5] = now();
        uint64_t a = roaring_sum(ours, len);
        at[6] = now();
        uint64_t b = 0;
        roaring_iterate(back, add, &b);
        at[7] = now();
        uint64_t c = 0;
        roaring_uint32_iterator_t it;
        for (roaring_init_iterator(back, &it); it.has_value; roaring_advance_uint32_iterator(&it)) c += it.current_value;
        at[8] = now();
        same(wrote == len && put == size && !memcmp(ours + 12, theirs, size), "bytes");
        same(good && a == sum && b == sum && c == sum, "members");
        roaring_bitmap_free(built);
        roaring_bitmap_free(back);
        for (int w = 0; w < WAYS; w++) took[w][i] = at[w + 1] - at[w];
    }
    static const char *ways[WAYS] = {
        "proved: write from rows", "CRoaring: write what is in memory", "CRoaring: build from sorted values and write", "proved: check",
        "CRoaring: read into memory", "proved: go through", "CRoaring: go through by callback", "CRoaring: go through by iterator",
    };
    printf("%s, %zu bytes, microseconds of processor time (median of %d)\n", name, len, TURNS);
    for (int w = 0; w < WAYS; w++) {
        qsort(took[w], TURNS, sizeof(double), order);
        printf("  %-45s %9.0f\n", ways[w], took[w][TURNS / 2]);
    }
    roaring_bitmap_free(r);
    free(v);
    free(t);
    free(ours);
    free(theirs);
}

int main(void) {
    run("dense (step 1)", 1);
    run("bitset (step 3)", 3);
    run("sparse (step 1,000)", 1000);
    return 0;
}
