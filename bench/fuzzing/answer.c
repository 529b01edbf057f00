// What every answer has to be, whatever the file says.
#include "question.h"

#include <string.h>

// The opening and a header of two numbers of one byte: the least that stands before an event.
enum { LEAST_HEADER = 6, LONGEST_FILE = 65536 };

// The threads of an order: so many bytes from this one on.
enum { THREADS_AT = 15, THREADS = ANSWER - THREADS_AT, NOBODY = 255 };

static uint64_t little_endian(const uint8_t *bytes, int count) {
    uint64_t sum = 0;
    while (count-- > 0) sum = sum << 8 | bytes[count];
    return sum;
}

// 4 and 5 are of a history and give Invalid.
static bool refuses_file(uint8_t number) {
    return number == 2 || number == 6 || (20 <= number && number <= 25);
}

static void check_refusal(const struct question *question, const struct answer *answer) {
    uint8_t number = answer->number;
    switch (answer->verdict) {
    case INVALID: must(number == 4 || number == 5, "Invalid comes of 4 and 5"); break;
    case REFUSED: must(refuses_file(number), "a refused file has a file's refusal"); break;
    default: must(number == 0, "Order, No order and Undecided have no refusal");
    }
    bool over = question->length > LONGEST_FILE;
    bool opens = question->length >= 4 && memcmp(question->file, "RAW1", 4) == 0;
    must((number == 20) == over, "20 exactly for a file over 65,536 bytes");
    must((number == 21) == (!over && !opens), "21 exactly for a file that does not open as it should");
}

static void check_place(const struct question *question, const struct answer *answer) {
    uint32_t place = answer->place;
    bool in_header = place == 0;
    bool at_event = LEAST_HEADER <= place && place < question->length;
    switch (answer->number) {
    case 0: case 20: case 21: case 25: must(in_header, "place 0 without an event that is refused"); break;
    case 22: case 23: case 24: must(in_header || at_event, "a field is of the header or of an event"); break;
    default: must(at_event, "the place is that of an event in the file");
    }
}

static void check_order(const struct question *question, const struct answer *answer) {
    must(answer->length <= THREADS, "an order has at most 64 places");
    must(answer->verdict == ORDER || answer->length == 0, "length 0 without an Order");
    for (int i = 0; i < THREADS; i++) {
        uint8_t thread = answer->bytes[THREADS_AT + i];
        if (i < answer->length) must(thread < 8, "a thread of the order is 0 to 7");
        else must(thread == NOBODY, "255 where no thread is");
    }
    must(answer->attempts <= question->budget, "no more attempts than the budget");
    switch (answer->verdict) {
    case ORDER:
        must(answer->attempts >= answer->length, "each place of the order took an attempt");
        must(answer->length > 0 || answer->attempts == 0, "an empty order takes no attempt");
        break;
    case NO_ORDER: must(answer->attempts > 0, "No order takes an attempt"); break;
    case UNDECIDED: must(answer->attempts == question->budget, "Undecided has used up the budget"); break;
    default: must(answer->attempts == 0, "no attempts with a refusal");
    }
}

struct answer judge(struct question question, size_t room, enum side side) {
    struct answer answer;
    call(question, room, side, answer.bytes);
    answer.verdict = answer.bytes[0];
    answer.number = answer.bytes[1];
    answer.length = answer.bytes[2];
    answer.attempts = little_endian(answer.bytes + 3, 8);
    answer.place = (uint32_t)little_endian(answer.bytes + 11, 4);
    must(answer.verdict <= REFUSED, "the verdict is 0 to 4");
    check_refusal(&question, &answer);
    check_place(&question, &answer);
    check_order(&question, &answer);
    return answer;
}
