// A fuzz input as a call of the judge, and what document 01 says of several calls about one file.
#include "question.h"

#include <string.h>

// An input: a byte that chooses the model, three for the budget, one for the buffer's length; the rest is the file.
enum { BUDGET_AT = 1, ROOM_AT = 4, FILE_AT = 5 };

// Most often 0 or 1, else any power of two.
static uint32_t model_of(uint8_t byte) {
    return byte < 224 ? byte & 1 : UINT32_C(1) << (byte & 31);
}

// 0 to 131,071 attempts, so that no search takes long.
static uint64_t budget_of(const uint8_t *bytes) {
    return bytes[0] | (uint64_t)bytes[1] << 8 | (uint64_t)(bytes[2] & 1) << 16;
}

// Most often 79 to 100 bytes, else less.
static size_t room_of(uint8_t byte) {
    return byte < 192 ? ANSWER + byte % 22 : byte % ANSWER;
}

static bool same(struct answer one, struct answer other) {
    return memcmp(one.bytes, other.bytes, ANSWER) == 0;
}

static struct answer within(struct question question, uint64_t budget) {
    question.budget = budget;
    return judge(question, ANSWER, AT_THE_END);
}

// An answer was found: it takes exactly the attempts that it reports.
static void check_budgets(struct question question, struct answer answer) {
    if (answer.verdict != ORDER && answer.verdict != NO_ORDER) return;
    must(same(answer, within(question, answer.attempts)), "the attempts reported suffice");
    must(same(answer, within(question, UINT64_MAX)), "a larger budget keeps the answer");
    if (answer.attempts > 0) {
        must(within(question, answer.attempts - 1).verdict == UNDECIDED, "one attempt less is Undecided");
    }
}

static void check_models(struct question question, struct answer answer) {
    bool linearizable = question.model == 1;
    question.model = 1 - question.model;
    struct answer other = judge(question, ANSWER, AT_THE_END);
    if (answer.number != 0 || other.number != 0) must(same(answer, other), "both models refuse alike");
    uint8_t by_time = linearizable ? answer.verdict : other.verdict;
    uint8_t sequential = linearizable ? other.verdict : answer.verdict;
    must(by_time != ORDER || sequential != NO_ORDER, "a linearizable history is sequentially consistent");
}

// Loading stops at the first refusal.
static void check_rest(struct question question, struct answer answer) {
    if (answer.place == 0) return;
    question.length = answer.place;
    must(judge(question, ANSWER, AT_THE_END).number == 0, "what stands before the refused event loads");
}

int LLVMFuzzerTestOneInput(const uint8_t *input, size_t size) {
    if (size < FILE_AT || size - FILE_AT > LONGEST) return 0;
    struct question question = {
        .file = input + FILE_AT,
        .length = size - FILE_AT,
        .model = model_of(input[0]),
        .budget = budget_of(input + BUDGET_AT),
    };
    size_t room = room_of(input[ROOM_AT]);
    if (room < ANSWER || question.model > 1) {
        call(question, room, AT_THE_END, NULL);
        call(question, room, AT_THE_BEGINNING, NULL);
        return 0;
    }
    struct answer answer = judge(question, room, AT_THE_END);
    must(same(answer, judge(question, room, AT_THE_BEGINNING)), "one question has one answer");
    check_budgets(question, answer);
    check_models(question, answer);
    check_rest(question, answer);
    return 0;
}
