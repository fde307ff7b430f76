/* Both implementations on the same buffer, in turns: megabytes per second of each, and their ratio. */
#include <stdint.h>
#include <stdio.h>
#include <stdlib.h>
#include <string.h>
#include <time.h>

void plain_sha256(const uint8_t *message, size_t len, uint8_t digest[32]);
void kurthewag_sha256(const uint8_t *message, size_t len, uint8_t *digest, size_t digest_len);

static double seconds(void) {
    struct timespec t;
    clock_gettime(CLOCK_MONOTONIC, &t);
    return (double)t.tv_sec + (double)t.tv_nsec / 1e9;
}

static void compare(const uint8_t *buffer, size_t len, int times) {
    uint8_t plain[32], proved[32];
    double best_plain = 1e9, best_proved = 1e9;
    for (int turn = 0; turn < 7; turn++) {
        double start = seconds();
        for (int i = 0; i < times; i++) plain_sha256(buffer, len, plain);
        double middle = seconds();
        for (int i = 0; i < times; i++) kurthewag_sha256(buffer, len, proved, 32);
        double end = seconds();
        if (middle - start < best_plain) best_plain = middle - start;
        if (end - middle < best_proved) best_proved = end - middle;
    }
    if (memcmp(plain, proved, 32) != 0) { printf("the digests of %zu bytes differ\n", len); exit(1); }
    double bytes = (double)len * times / 1e6;
    printf("%9zu bytes: plain C %6.1f MB/s, proved %6.1f MB/s, ratio %.2f\n", len, bytes / best_plain, bytes / best_proved, best_plain / best_proved);
}

int main(void) {
    size_t most = 16u << 20;
    uint8_t *buffer = malloc(most);
    if (!buffer) return 1;
    for (size_t i = 0; i < most; i++) buffer[i] = (uint8_t)(i * 31 + (i >> 8));
    compare(buffer, 64, 200000);
    compare(buffer, 1024, 20000);
    compare(buffer, 10752, 2000);
    compare(buffer, most, 2);
    free(buffer);
    return 0;
}
