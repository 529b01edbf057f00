// The exported call by its numbers and bytes: what kilteshva.h says is what comes out.
#include "../kilteshva.h"
#include "captures.h"
#include "check.h"

enum { ROOM = KILTESHVA_ANSWER + 21 };

// What the buffer holds before a call. There are two, so that a byte that is not written shows.
static const uint8_t fillings[] = {0xA5, 0x5A};

static bool all_are(const uint8_t *bytes, size_t count, uint8_t value) {
    for (size_t i = 0; i < count; i++) {
        if (bytes[i] != value) return false;
    }
    return true;
}

// Whether the call returns this and gives these bytes, and leaves the rest of the buffer alone.
static bool gives(struct capture capture, uint32_t model, uint64_t budget, const uint8_t *answer) {
    for (int i = 0; i < 2; i++) {
        uint8_t buffer[ROOM];
        memset(buffer, fillings[i], ROOM);
        if (kilteshva_judge(capture.bytes, capture.length, model, budget, buffer, ROOM) != 0) return false;
        if (memcmp(buffer, answer, 79) != 0) return false;
        if (!all_are(buffer + 79, ROOM - 79, fillings[i])) return false;
    }
    return true;
}

// Whether the call returns this number and leaves the whole buffer alone, of which it is told so many bytes.
static bool only_returns(uint32_t number, uint32_t model, size_t room) {
    struct capture capture = TRACE_14;
    for (int i = 0; i < 2; i++) {
        uint8_t buffer[ROOM];
        memset(buffer, fillings[i], ROOM);
        if (kilteshva_judge(capture.bytes, capture.length, model, 2, buffer, room) != number) return false;
        if (!all_are(buffer, ROOM, fillings[i])) return false;
    }
    return true;
}

static void check_trace_14(void) {
    uint8_t answer[79] = {0, 0, 2, 2, 0, 0, 0, 0, 0, 0, 0, 0, 0, 0, 0, 0, 1};
    memset(answer + 17, 0xFF, 62);
    check(gives(TRACE_14, 0, 2, answer), "trace 14, sequential, budget 2");
    check(gives(TRACE_14, 1, 2, answer), "trace 14, linearizable, budget 2");
    check(gives(TRACE_14, 1, UINT64_C(1) << 32, answer), "trace 14, linearizable, a budget of more than 32 bits");
    check(gives(TRACE_14, 1, UINT64_MAX, answer), "trace 14, linearizable, the largest budget");
}

static void check_numbers(void) {
    bool every = true;
    for (size_t room = 0; room < 79; room++) every = every && only_returns(10, 1, room);
    check(every, "10 for 0 to 78 bytes, and nothing is written");
    check(only_returns(10, 2, 78), "10 comes before 11");
    check(only_returns(11, 2, ROOM), "11 for model 2, and nothing is written");
    check(only_returns(11, 256, ROOM), "11 for model 256, and nothing is written");
    check(only_returns(11, 65536, 79), "11 for model 65,536, and nothing is written");
    check(only_returns(11, UINT32_MAX, 79), "11 for the largest model, and nothing is written");
    check(KILTESHVA_ANSWERED == 0, "KILTESHVA_ANSWERED");
    check(only_returns(KILTESHVA_SHORT_BUFFER, 1, KILTESHVA_ANSWER - 1), "KILTESHVA_SHORT_BUFFER, KILTESHVA_ANSWER");
    check(only_returns(KILTESHVA_UNKNOWN_MODEL, 2, KILTESHVA_ANSWER), "KILTESHVA_UNKNOWN_MODEL");
}

// An answer of which all that is not given is 0, and unused.
struct said {
    uint8_t verdict, refusal, length;
    uint64_t attempts;
    uint32_t place;
    uint8_t threads[KILTESHVA_OPERATIONS];
};

// Whether this is said of the bytes, read by the constants and the functions of kilteshva.h.
static bool says(const uint8_t *file, size_t length, uint32_t model, uint64_t budget, struct said said) {
    uint8_t answer[KILTESHVA_ANSWER];
    if (kilteshva_judge(file, length, model, budget, answer, sizeof answer) != KILTESHVA_ANSWERED) return false;
    const uint8_t *threads = answer + KILTESHVA_AT_THREADS;
    return kilteshva_is_answer(answer) && answer[KILTESHVA_AT_VERDICT] == said.verdict &&
           answer[KILTESHVA_AT_REFUSAL] == said.refusal && answer[KILTESHVA_AT_LENGTH] == said.length &&
           kilteshva_attempts(answer) == said.attempts && kilteshva_place(answer) == said.place &&
           memcmp(threads, said.threads, said.length) == 0 &&
           all_are(threads + said.length, (size_t)(KILTESHVA_OPERATIONS - said.length), KILTESHVA_UNUSED);
}

static bool of(struct capture capture, uint32_t model, uint64_t budget, struct said said) {
    return says(capture.bytes, capture.length, model, budget, said);
}

static bool refused(struct capture capture, uint8_t verdict, uint8_t refusal, uint32_t place) {
    struct said said = {.verdict = verdict, .refusal = refusal, .place = place};
    return of(capture, KILTESHVA_SEQUENTIAL, UINT64_MAX, said) && of(capture, KILTESHVA_LINEARIZABLE, UINT64_MAX, said);
}

static void check_verdicts(void) {
    struct said stale = {.verdict = KILTESHVA_ORDER, .length = 2, .attempts = 4, .threads = {1, 0}};
    check(of(STALE_READ, KILTESHVA_SEQUENTIAL, 4, stale), "KILTESHVA_ORDER, KILTESHVA_SEQUENTIAL");
    struct said none = {.verdict = KILTESHVA_NO_ORDER, .attempts = 3};
    check(of(STALE_READ, KILTESHVA_LINEARIZABLE, 3, none), "KILTESHVA_NO_ORDER, KILTESHVA_LINEARIZABLE");
    struct said open = {.verdict = KILTESHVA_UNDECIDED, .attempts = 2};
    check(of(STALE_READ, KILTESHVA_LINEARIZABLE, 2, open), "KILTESHVA_UNDECIDED");
    struct said empty = {.verdict = KILTESHVA_ORDER};
    check(of(REGISTER("\x00\x01"), KILTESHVA_LINEARIZABLE, 0, empty), "an empty order where no operation completed");
    struct said full = {.verdict = KILTESHVA_ORDER, .length = KILTESHVA_OPERATIONS, .attempts = 64};
    check(of(reads(64), KILTESHVA_LINEARIZABLE, 64, full), "KILTESHVA_OPERATIONS");
    struct said many = {.verdict = KILTESHVA_UNDECIDED, .attempts = 0x012345};
    check(of(long_search(), KILTESHVA_LINEARIZABLE, 0x012345, many), "attempts of three bytes");
}

static void check_refusals(void) {
    struct capture deep = CAPTURE("RAW1\x02\x21"), code = CAPTURE("RAW1\x03");
    const uint8_t by_file = KILTESHVA_REFUSED, by_history = KILTESHVA_INVALID;
    check(refused(REGISTER("\x00\x01\x10\x01"), by_file, KILTESHVA_THREAD_ABOVE_7, 8), "KILTESHVA_THREAD_ABOVE_7");
    check(refused(REGISTER("\x00\x01\x00\x01"), by_history, KILTESHVA_SECOND_INVOKE, 8), "KILTESHVA_SECOND_INVOKE");
    check(refused(REGISTER("\x00\x01\x03\x00"), by_history, KILTESHVA_STRAY_RETURN, 8), "KILTESHVA_STRAY_RETURN");
    check(refused(reads(65), by_file, KILTESHVA_TOO_MANY_OPERATIONS, 326), "KILTESHVA_TOO_MANY_OPERATIONS, place");
    check(refused(CAPTURE("RAW2"), by_file, KILTESHVA_NOT_A_CAPTURE, 0), "KILTESHVA_NOT_A_CAPTURE");
    check(refused(REGISTER("\x00"), by_file, KILTESHVA_CUT_OFF, 6), "KILTESHVA_CUT_OFF");
    check(refused(REGISTER("\xff\xff\xff\xff\x10"), by_file, KILTESHVA_NUMBER_TOO_LARGE, 6),
          "KILTESHVA_NUMBER_TOO_LARGE");
    check(refused(code, by_file, KILTESHVA_UNKNOWN_CODE, 0), "KILTESHVA_UNKNOWN_CODE");
    check(refused(deep, by_file, KILTESHVA_INITIAL_STACK_TOO_DEEP, 0), "KILTESHVA_INITIAL_STACK_TOO_DEEP");

    static uint8_t file[KILTESHVA_LONGEST_FILE + 1];
    struct said short_enough = {.verdict = KILTESHVA_REFUSED, .refusal = KILTESHVA_NOT_A_CAPTURE};
    struct said too_long = {.verdict = KILTESHVA_REFUSED, .refusal = KILTESHVA_FILE_TOO_LONG};
    check(says(file, KILTESHVA_LONGEST_FILE, 1, 1, short_enough), "KILTESHVA_LONGEST_FILE");
    check(says(file, KILTESHVA_LONGEST_FILE + 1, 1, 1, too_long), "KILTESHVA_FILE_TOO_LONG");
}

static void check_null(void) {
    struct capture capture = TRACE_14;
    struct said no_capture = {.verdict = KILTESHVA_REFUSED, .refusal = KILTESHVA_NOT_A_CAPTURE};
    check(says(NULL, 0, KILTESHVA_SEQUENTIAL, 1, no_capture), "no file, sequential");
    check(says(NULL, 0, KILTESHVA_LINEARIZABLE, 1, no_capture), "no file, linearizable");
    check(kilteshva_judge(capture.bytes, capture.length, 1, 2, NULL, 0) == KILTESHVA_SHORT_BUFFER, "no buffer");
}

static void check_meanings(void) {
    int words = 0;
    for (int number = 0; number < 256; number++) words += kilteshva_meaning((uint8_t)number) != NULL;
    check(words == 10, "ten refusals have a meaning");
}

static void check_made_of(void) {
    size_t digits = strspn(kilteshva_made_of, "0123456789abcdef");
    check(digits == 64 && kilteshva_made_of[digits] == 0, "kilteshva_made_of has 64 hex digits");
}

int main(void) {
    check_trace_14();
    check_numbers();
    check_verdicts();
    check_refusals();
    check_null();
    check_meanings();
    check_made_of();
    return closing();
}
