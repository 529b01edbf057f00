// What is asked of the judge, and what comes back.
#pragma once

#include <stdbool.h>
#include <stddef.h>
#include <stdint.h>

enum { ANSWER = 79 };

// The longest file that is tried: twice what document 01 allows.
enum { LONGEST = 1 << 17 };

struct question {
    const uint8_t *file;
    size_t length;
    uint32_t model;
    uint64_t budget;
};

enum verdict { ORDER, NO_ORDER, UNDECIDED, INVALID, REFUSED };

struct answer {
    uint8_t bytes[ANSWER];
    // The same, taken apart, but for the threads.
    uint8_t verdict;
    uint8_t number;
    uint8_t length;
    uint64_t attempts;
    uint32_t place;
};

// Ends the run where a rule does not hold, so that the input is kept.
void must(bool holds, const char *rule);

// Where the file and the buffer stand: ending where memory ends that may be touched, or beginning where it begins.
enum side { AT_THE_END, AT_THE_BEGINNING };

// Makes the call with a buffer of so many bytes, and copies the answer where there is one. What it returned is right, and
// nothing was touched that must not be.
void call(struct question question, size_t room, enum side side, uint8_t answer[ANSWER]);

// The answer to a question of model 0 or 1, in a buffer that has room for it; an answer that can be right.
struct answer judge(struct question question, size_t room, enum side side);
