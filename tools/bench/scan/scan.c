// The peer of an exact search: one scan over words that lie in one block, with a heap of the nearest so far, and one thread.
//     scan MEMBERS WORDS COUNT SEARCHES
// At each line of standard input it looks for so many of the members, and writes how many searches a second it made.
#include <stdint.h>
#include <stdio.h>
#include <stdlib.h>
#include <time.h>

typedef struct {
    uint32_t dist, place;
} Hit;

static int is_after(Hit a, Hit b) { return a.dist != b.dist ? a.dist > b.dist : a.place > b.place; }

static void sift_down(Hit *heap, uint32_t len, Hit hit) {
    uint32_t at = 0;
    for (;;) {
        uint32_t child = 2 * at + 1;
        if (child >= len) break;
        if (child + 1 < len && is_after(heap[child + 1], heap[child])) child++;
        if (!is_after(heap[child], hit)) break;
        heap[at] = heap[child];
        at = child;
    }
    heap[at] = hit;
}

static void sift_up(Hit *heap, uint32_t at, Hit hit) {
    while (at > 0 && is_after(hit, heap[(at - 1) / 2])) {
        heap[at] = heap[(at - 1) / 2];
        at = (at - 1) / 2;
    }
    heap[at] = hit;
}

static uint32_t scan(const uint64_t *all, uint32_t members, uint32_t words, const uint64_t *query, uint32_t count, Hit *heap) {
    uint32_t len = 0;
    for (uint32_t place = 0; place < members; place++) {
        const uint64_t *row = all + (size_t)place * words;
        uint32_t dist = 0;
        for (uint32_t i = 0; i < words; i++) dist += (uint32_t)__builtin_popcountll(row[i] ^ query[i]);
        Hit hit = {dist, place};
        if (len < count) {
            sift_up(heap, len, hit);
            len++;
        } else if (is_after(heap[0], hit)) {
            sift_down(heap, len, hit);
        }
    }
    return len;
}

static uint64_t next_word(uint64_t *state) {
    *state ^= *state << 13;
    *state ^= *state >> 7;
    *state ^= *state << 17;
    return *state;
}

int main(int argc, char **argv) {
    if (argc != 5) return 2;
    uint32_t members = (uint32_t)atoi(argv[1]), words = (uint32_t)atoi(argv[2]), count = (uint32_t)atoi(argv[3]), searches = (uint32_t)atoi(argv[4]);
    uint64_t *all = malloc((size_t)members * words * sizeof *all), state = 88172645463325252u;
    Hit *heap = malloc((size_t)count * sizeof *heap);
    if (members == 0 || count == 0 || all == NULL || heap == NULL) return 1;
    for (size_t i = 0; i < (size_t)members * words; i++) all[i] = next_word(&state);
    fprintf(stderr, "generated\n");
    for (int c; (c = getchar()) != EOF;) {
        if (c != '\n') continue;
        struct timespec start, end;
        uint64_t sum = 0;
        clock_gettime(CLOCK_MONOTONIC, &start);
        for (uint32_t i = 0; i < searches; i++) {
            uint32_t len = scan(all, members, words, all + (size_t)(i % members) * words, count, heap);
            for (uint32_t k = 0; k < len; k++) sum += heap[k].dist;
        }
        clock_gettime(CLOCK_MONOTONIC, &end);
        double seconds = (double)(end.tv_sec - start.tv_sec) + (double)(end.tv_nsec - start.tv_nsec) / 1e9;
        printf("%.1f %llu\n", searches / seconds, (unsigned long long)sum);
        fflush(stdout);
    }
    return 0;
}
