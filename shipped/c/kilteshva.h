// Judges captures: whether some one-at-a-time order explains what eight clients saw. For C99 and C++11; link
// libkilteshva.a or libkilteshva.so, which shipped/library makes in target/library.
//
// Only KILTESHVA_ORDER is green, and two greens deserve a second look. An order of length 0 says that no operation
// completed, so that there was nothing to judge. A file that is cut behind an event is a shorter capture, and as such
// may be green: look whether the operations are those that you expect, or hold the files to a manifest.
#ifndef KILTESHVA_H
#define KILTESHVA_H

#include <stdbool.h>
#include <stddef.h>
#include <stdint.h>

// What an order has to respect, besides each thread's own order.
enum {
    // Sequential consistency (Lamport 1979): nothing more. A stale answer of another thread passes.
    KILTESHVA_SEQUENTIAL = 0,
    // Linearizability (Herlihy and Wing 1990): real time too, so that no stale answer passes.
    KILTESHVA_LINEARIZABLE = 1,
};

// What the call returns. With the second and the third nothing was written.
enum {
    KILTESHVA_ANSWERED = 0,
    // The buffer has room for less than an answer.
    KILTESHVA_SHORT_BUFFER = 10,
    // The model is neither of the two.
    KILTESHVA_UNKNOWN_MODEL = 11,
};

// Sizes.
enum {
    // The bytes of an answer.
    KILTESHVA_ANSWER = 79,
    // The most operations of a capture, and so the most places of an order.
    KILTESHVA_OPERATIONS = 64,
    // The most bytes of a file. A longer one is refused whatever it holds, so nobody needs to read more than one byte
    // beyond.
    KILTESHVA_LONGEST_FILE = 65536,
};

// Where the fields of an answer begin.
enum {
    KILTESHVA_AT_VERDICT = 0,
    // Why the file was not judged to its end; 0 with the first three verdicts.
    KILTESHVA_AT_REFUSAL = 1,
    // How many places the order has; 0 with every verdict but Order.
    KILTESHVA_AT_LENGTH = 2,
    // Attempts that the search made, in eight bytes, lowest first.
    KILTESHVA_AT_ATTEMPTS = 3,
    // Where the event that was refused starts in the file, in four bytes, lowest first; 0 for the header or the whole
    // file.
    KILTESHVA_AT_PLACE = 11,
    // Whose operation comes next, 0 to 7. The k-th time that a thread stands here, its k-th operation is meant. An
    // operation that got no answer may stand here or not.
    KILTESHVA_AT_THREADS = 15,
};

// What stands behind the order's end.
enum { KILTESHVA_UNUSED = 255 };

// What an answer says of a file.
enum {
    // Some order explains the capture; the answer has the first.
    KILTESHVA_ORDER = 0,
    // No order explains it.
    KILTESHVA_NO_ORDER = 1,
    // The search needs more attempts than the budget.
    KILTESHVA_UNDECIDED = 2,
    // The capture contradicts itself: KILTESHVA_SECOND_INVOKE or KILTESHVA_STRAY_RETURN.
    KILTESHVA_INVALID = 3,
    // The file is no capture that can be judged: any other refusal.
    KILTESHVA_REFUSED = 4,
};

// Every refusal that a file can meet; kilteshva_meaning has the words.
enum {
    KILTESHVA_THREAD_ABOVE_7 = 2,
    KILTESHVA_SECOND_INVOKE = 4,
    KILTESHVA_STRAY_RETURN = 5,
    KILTESHVA_TOO_MANY_OPERATIONS = 6,
    KILTESHVA_FILE_TOO_LONG = 20,
    KILTESHVA_NOT_A_CAPTURE = 21,
    KILTESHVA_CUT_OFF = 22,
    KILTESHVA_NUMBER_TOO_LARGE = 23,
    KILTESHVA_UNKNOWN_CODE = 24,
    KILTESHVA_INITIAL_STACK_TOO_DEEP = 25,
};

#ifdef __cplusplus
extern "C" {
#endif

// Judges the bytes of a file under a model, with at most `budget` attempts at placing an operation. The first
// KILTESHVA_ANSWER bytes of `answer` become the answer, and the others keep what they hold.
//
// Any bytes get an answer. The caller owes memory of the lengths given, which don't overlap and which nobody else
// writes during the call, and nothing else: no alignment, and a pointer with length 0 may be NULL. A call keeps
// nothing, so any number of threads may call at once. It needs less than 256 KiB of stack, and its time grows with the
// attempts made.
//
// A larger budget never changes Order or No order; it can only turn Undecided into one of them.
uint32_t kilteshva_judge(const uint8_t *file, size_t file_len, uint32_t model, uint64_t budget, uint8_t *answer,
                         size_t answer_len);

// 64 hex digits and a 0: the digest of the sources and of the kit that the library was made from.
extern const char kilteshva_made_of[];

#ifdef __cplusplus
}
#endif

// Attempts that the search made; with Undecided, the budget.
static inline uint64_t kilteshva_attempts(const uint8_t *answer) {
    uint64_t attempts = 0;
    for (int i = 7; i >= 0; i--) attempts = attempts << 8 | answer[KILTESHVA_AT_ATTEMPTS + i];
    return attempts;
}

// Where the event that was refused starts in the file.
static inline uint32_t kilteshva_place(const uint8_t *answer) {
    uint32_t place = 0;
    for (int i = 3; i >= 0; i--) place = place << 8 | answer[KILTESHVA_AT_PLACE + i];
    return place;
}

// What a refusal means, in plain words; NULL for a number that no file gets.
static inline const char *kilteshva_meaning(uint8_t refusal) {
    switch (refusal) {
    case KILTESHVA_THREAD_ABOVE_7: return "the event names a thread above 7";
    case KILTESHVA_SECOND_INVOKE: return "the thread invokes an operation while its last one is still in flight";
    case KILTESHVA_STRAY_RETURN: return "the thread returns although it has no operation in flight";
    case KILTESHVA_TOO_MANY_OPERATIONS: return "the event would be the 65th operation, and 64 is the most";
    case KILTESHVA_FILE_TOO_LONG: return "the file is longer than 65,536 bytes";
    case KILTESHVA_NOT_A_CAPTURE: return "the file does not open with the bytes RAW1";
    case KILTESHVA_CUT_OFF: return "the file ends where a number should go on";
    case KILTESHVA_NUMBER_TOO_LARGE: return "a number is above 4,294,967,295 or longer than five bytes";
    case KILTESHVA_UNKNOWN_CODE: return "a number stands for no object, operation, return or flag";
    case KILTESHVA_INITIAL_STACK_TOO_DEEP: return "the stack starts with more than 32 values";
    default: return NULL;
    }
}

// Whether the library can give these bytes: each field is one that the others allow. The judge gives no others, but
// another library in its place may, and its bytes must not pass for green.
static inline bool kilteshva_is_answer(const uint8_t *answer) {
    uint8_t verdict = answer[KILTESHVA_AT_VERDICT];
    uint8_t refusal = answer[KILTESHVA_AT_REFUSAL];
    uint8_t length = answer[KILTESHVA_AT_LENGTH];
    for (int i = 0; i < KILTESHVA_OPERATIONS; i++) {
        uint8_t thread = answer[KILTESHVA_AT_THREADS + i];
        if (i < length ? thread > 7 : thread != KILTESHVA_UNUSED) return false;
    }
    if (length > (verdict == KILTESHVA_ORDER ? KILTESHVA_OPERATIONS : 0)) return false;
    bool contradicts = refusal == KILTESHVA_SECOND_INVOKE || refusal == KILTESHVA_STRAY_RETURN;
    switch (verdict) {
    case KILTESHVA_ORDER:
    case KILTESHVA_NO_ORDER:
    case KILTESHVA_UNDECIDED: return refusal == 0 && kilteshva_place(answer) == 0;
    case KILTESHVA_INVALID: return contradicts && kilteshva_attempts(answer) == 0;
    case KILTESHVA_REFUSED: return !contradicts && kilteshva_meaning(refusal) && kilteshva_attempts(answer) == 0;
    default: return false;
    }
}

#endif
