// The call itself, between walls: memory that can be neither read nor written.
#define _GNU_SOURCE
#include "question.h"

#include <stdio.h>
#include <stdlib.h>
#include <string.h>
#include <sys/mman.h>

uint32_t kilteshva_judge(const uint8_t *file, size_t file_len, uint32_t model, uint64_t budget, uint8_t *answer,
                         size_t answer_len);

enum { WALL = 1 << 20, PAGE = 1 << 12 };

void must(bool holds, const char *rule) {
    if (!holds) {
        fprintf(stderr, "broken: %s\n", rule);
        abort();
    }
}

// So many bytes, a whole number of pages, with a wall on either side.
static uint8_t *walled(size_t bytes) {
    uint8_t *all = mmap(NULL, WALL + bytes + WALL, PROT_NONE, MAP_PRIVATE | MAP_ANONYMOUS | MAP_NORESERVE, -1, 0);
    must(all != MAP_FAILED, "there is memory for walls");
    must(mprotect(all + WALL, bytes, PROT_READ | PROT_WRITE) == 0, "there is memory between walls");
    return all + WALL;
}

static bool all_are(const uint8_t *bytes, size_t count, uint8_t value) {
    for (size_t i = 0; i < count; i++) {
        if (bytes[i] != value) return false;
    }
    return true;
}

void call(struct question question, size_t room, enum side side, uint8_t answer[ANSWER]) {
    static uint8_t *files, *buffers;
    if (!files) {
        files = walled(LONGEST);
        buffers = walled(PAGE);
    }
    uint8_t *file = side == AT_THE_END ? files + LONGEST - question.length : files;
    uint8_t *buffer = side == AT_THE_END ? buffers + PAGE - room : buffers;
    // Another filling on the other side, so that a byte of the answer that is not written shows.
    uint8_t filling = side == AT_THE_END ? 0xA5 : 0x5A;
    if (question.length > 0) memcpy(file, question.file, question.length);
    memset(buffer, filling, room);

    uint32_t number = kilteshva_judge(file, question.length, question.model, question.budget, buffer, room);

    uint32_t due = room < ANSWER ? 10 : question.model > 1 ? 11 : 0;
    must(number == due, "10 for a short buffer, else 11 for another model");
    must(question.length == 0 || memcmp(file, question.file, question.length) == 0, "the file is not written");
    if (number != 0) {
        must(all_are(buffer, room, filling), "nothing is written with 10 or 11");
        return;
    }
    must(all_are(buffer + ANSWER, room - ANSWER, filling), "bytes from 79 on keep their contents");
    memcpy(answer, buffer, ANSWER);
}
