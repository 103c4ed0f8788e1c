/* The counter's program: reads a book file and prints what its check answers, `number p`. With an agent and its picks, as numbers, it prints what one
   move of that agent from the start of the book answers, `number p q`. */
#include <stdio.h>
#include <stdlib.h>

#include "../include/rental.h"

/* The largest book has 2 + 32 + 1,024 + 16 + 65,536 lines of 25 bytes; one byte more is enough to see a surplus. */
enum { MOST = (2 + 32 + 1024 + 16 + 65536) * 25 + 1 };

/* The most locations of a book, the instructions of a move, and the picks that this program takes. */
enum { LOCATIONS = 65536, INSTRUCTIONS = 256, PICKS = 64 };

static uint8_t book[MOST];
static uint16_t contents[LOCATIONS];
static uint64_t readers[LOCATIONS], writers[LOCATIONS];

/* The start of a book is what a log without moves leaves. */
static uint64_t start(size_t length) {
    static const uint8_t no_moves[] = "     0     0     0     0\n";
    uint64_t tally[2];
    return rental_run_log(book, length, no_moves, sizeof no_moves - 1, contents, LOCATIONS, readers, LOCATIONS, writers, LOCATIONS, INSTRUCTIONS, tally);
}

/* A move of an agent, the first word, with the picks that the other words give. */
static uint64_t move(size_t length, int count, char **words) {
    uint64_t picks[PICKS];
    for (int i = 1; i < count; i++) {
        picks[i - 1] = strtoull(words[i], NULL, 10);
    }
    uint64_t answer = start(length);
    if (answer != 0) {
        return answer;
    }
    return rental_move(book, length, contents, LOCATIONS, strtoul(words[0], NULL, 10), picks, (size_t)count - 1, INSTRUCTIONS);
}

int main(int count, char **words) {
    FILE *file = count >= 2 && count <= PICKS + 3 ? fopen(words[1], "rb") : NULL;
    if (file == NULL) {
        fprintf(stderr, "usage: counter BOOK [AGENT [PICK...]]\n");
        return 2;
    }
    size_t length = fread(book, 1, MOST, file);
    int failed = ferror(file);
    fclose(file);
    if (failed) {
        fprintf(stderr, "counter: cannot read %s\n", words[1]);
        return 2;
    }
    unsigned long long answer;
    if (count == 2) {
        answer = rental_check_book(book, length);
        printf("%llu %llu\n", answer >> 32, answer & 0xffffffffu);
    } else {
        answer = move(length, count - 2, words + 2);
        printf("%llu %llu %llu\n", answer >> 48, answer >> 24 & 0xffffffu, answer & 0xffffffu);
    }
    return answer != 0;
}
