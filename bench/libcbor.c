// libcbor ROUNDS FILE: reads, writes and drops a document with libcbor, and prints the best of so many rounds, in
// nanoseconds. In 0 rounds the document is read once, for its memory.
#include <cbor.h>
#include <stdio.h>
#include <stdlib.h>
#include <time.h>

static long long now(void) {
    struct timespec t;
    clock_gettime(CLOCK_MONOTONIC, &t);
    return t.tv_sec * 1000000000LL + t.tv_nsec;
}

static void keep_best(long long *best, long long start) {
    long long took = now() - start;
    if (took < *best) {
        *best = took;
    }
}

int main(int argc, char **argv) {
    if (argc != 3) {
        return 2;
    }
    FILE *file = fopen(argv[2], "rb");
    if (file == NULL || fseek(file, 0, SEEK_END) != 0) {
        return 1;
    }
    size_t size = ftell(file);
    rewind(file);
    unsigned char *bytes = malloc(size);
    if (bytes == NULL || fread(bytes, 1, size, file) != size) {
        return 1;
    }
    if (atoi(argv[1]) == 0) {
        struct cbor_load_result result;
        return cbor_load(bytes, size, &result) == NULL;
    }
    long long read = 1LL << 60, write = read, gone = read;
    for (int round = 0; round < atoi(argv[1]); round++) {
        struct cbor_load_result result;
        long long start = now();
        cbor_item_t *item = cbor_load(bytes, size, &result);
        keep_best(&read, start);
        if (item == NULL) {
            return 1;
        }
        unsigned char *out = NULL;
        size_t room = 0;
        start = now();
        size_t written = cbor_serialize_alloc(item, &out, &room);
        keep_best(&write, start);
        if (written != size) {
            return 1;
        }
        free(out);
        start = now();
        cbor_decref(&item);
        keep_best(&gone, start);
    }
    printf("read %lld\nwrite %lld\ndrop %lld\n", read, write, gone);
    return 0;
}
