// Makes three data files of crates/record_vectors with CRoaring (Debian's libroaring-dev):
//   cc -O2 -o make_vectors bench/roaring/make_vectors.c -lroaring && ./make_vectors crates/record_vectors/data
// A file is a 64-bit bitmap: the number of buckets (8 bytes), then for each the high half (4 bytes) and CRoaring's portable
// form of its 32-bit bitmap. The heads of 8 and 4 bytes are written here, little endian; all else is CRoaring's.
#include <roaring/roaring.h>
#include <stdint.h>
#include <stdio.h>
#include <stdlib.h>

static FILE *out;

static void number(uint64_t x, int n) {
    for (int i = 0; i < n; i++) fputc((int)(x >> (8 * i) & 255), out);
}

static void file(const char *dir, const char *name, uint64_t buckets) {
    char path[4096];
    snprintf(path, sizeof path, "%s/%s", dir, name);
    out = fopen(path, "wb");
    if (!out) { perror(path); exit(1); }
    number(buckets, 8);
}

static size_t bucket(uint32_t high, roaring_bitmap_t *r) {
    size_t n = roaring_bitmap_portable_size_in_bytes(r);
    char *b = malloc(n);
    roaring_bitmap_portable_serialize(r, b);
    number(high, 4);
    fwrite(b, 1, n, out);
    free(b);
    return n;
}

// n values from first on, each by itself, so that the containers are arrays or bits
static void add(roaring_bitmap_t *r, uint32_t first, uint32_t step, uint32_t n) {
    for (uint32_t i = 0; i < n; i++) roaring_bitmap_add(r, first + i * step);
}

int main(int argc, char **argv) {
    const char *dir = argc > 1 ? argv[1] : ".";

    // the two test bitmaps of the format specification
    roaring_bitmap_t *r = roaring_bitmap_create();
    add(r, 0, 1000, 100);
    add(r, 300000, 3, 100000);
    add(r, 700000, 1, 100000);
    file(dir, "without_runs", 1);
    printf("without_runs: %zu\n", bucket(0, r));
    fclose(out);
    roaring_bitmap_run_optimize(r);
    file(dir, "with_runs", 1);
    printf("with_runs: %zu\n", bucket(0, r));
    fclose(out);

    // containers of 1, 4,096, 4,097 and 65,536 members; an empty bucket; runs; the last number
    file(dir, "sizes", 4);
    r = roaring_bitmap_create();
    add(r, 7, 1, 1);
    add(r, 65536, 2, 4096);
    add(r, 5 * 65536, 3, 4097);
    add(r, 7 * 65536, 1, 65536);
    printf("sizes 0: %zu\n", bucket(0, r));
    r = roaring_bitmap_create();
    printf("sizes 1: %zu\n", bucket(1, r));
    r = roaring_bitmap_create();
    add(r, 10, 1, 10);
    add(r, 100, 1, 65436);
    add(r, 3 * 65536, 5, 50);
    roaring_bitmap_run_optimize(r);
    printf("sizes 2: %zu\n", bucket(2, r));
    r = roaring_bitmap_create();
    add(r, 4294967295u, 1, 1);
    printf("sizes 4294967295: %zu\n", bucket(4294967295u, r));
    fclose(out);
    return 0;
}
