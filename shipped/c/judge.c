// Judges the files given, a line for each: an example of a program over kilteshva.h.
// cc -std=c99 judge.c ../../target/library/libkilteshva.a -o judge
#include "kilteshva.h"

#include <ctype.h>
#include <errno.h>
#include <inttypes.h>
#include <stdio.h>
#include <string.h>

static const char usage[] =
    "usage: judge [--model MODEL] [--budget N] FILE...\n"
    "       judge --made-of\n"
    "\n"
    "MODEL is linearizable (the default) or sequential. N is how many attempts the search of a file may make (default\n"
    "1000000000). --made-of prints the digest of what the library was made from.\n"
    "\n"
    "exit status, the first that fits:\n"
    "  2  bad usage, or some file was not judged: unreadable, or no operation in it completed\n"
    "  1  some file is No order, Invalid or Refused\n"
    "  3  some file is Undecided\n"
    "  0  every file is Order\n";

enum status { GREEN = 0, RED = 1, TROUBLE = 2, OPEN = 3 };

struct terms {
    uint32_t model;
    uint64_t budget;
};

// A name can't end its line or change what the terminal shows.
static void print_name(const char *name) {
    for (; *name; name++) {
        if (iscntrl((unsigned char)*name)) printf("\\x%02x", (unsigned char)*name);
        else putchar(*name);
    }
}

static void print_heading(const char *verdict, const char *name) {
    printf("%-10s ", verdict);
    print_name(name);
    printf(": ");
}

static void print_attempts(const uint8_t *answer) {
    uint64_t attempts = kilteshva_attempts(answer);
    printf(attempts == 1 ? "%" PRIu64 " attempt" : "%" PRIu64 " attempts", attempts);
}

static enum status tell_order(const char *name, const uint8_t *answer) {
    uint8_t length = answer[KILTESHVA_AT_LENGTH];
    if (length == 0) {
        print_heading("Empty", name);
        printf("nothing judged, since no operation completed\n");
        return TROUBLE;
    }
    print_heading("Order", name);
    printf("threads");
    for (int i = 0; i < length; i++) printf(" %u", answer[KILTESHVA_AT_THREADS + i]);
    printf(" (");
    print_attempts(answer);
    printf(")\n");
    return GREEN;
}

static enum status tell_no_order(const char *name, const uint8_t *answer) {
    print_heading("No order", name);
    printf("no one-at-a-time order explains it (");
    print_attempts(answer);
    printf(")\n");
    return RED;
}

static enum status tell_undecided(const char *name, const uint8_t *answer) {
    print_heading("Undecided", name);
    printf("a budget of ");
    print_attempts(answer);
    printf(" does not cover the search\n");
    return OPEN;
}

static enum status tell_refusal(const char *verdict, const char *name, const uint8_t *answer) {
    uint8_t refusal = answer[KILTESHVA_AT_REFUSAL];
    uint32_t place = kilteshva_place(answer);
    print_heading(verdict, name);
    printf("refusal %u ", refusal);
    if (place == 0) printf("in the header");
    else printf("in the event at byte %" PRIu32, place);
    printf(": %s\n", kilteshva_meaning(refusal));
    return RED;
}

static enum status judge(const char *name, const uint8_t *file, size_t length, struct terms terms) {
    uint8_t answer[KILTESHVA_ANSWER] = {0};
    uint32_t result = kilteshva_judge(file, length, terms.model, terms.budget, answer, sizeof answer);
    if (result != KILTESHVA_ANSWERED || !kilteshva_is_answer(answer)) {
        print_heading("Unknown", name);
        printf("the library is not the judge (it returned %" PRIu32 ")\n", result);
        return TROUBLE;
    }
    switch (answer[KILTESHVA_AT_VERDICT]) {
    case KILTESHVA_ORDER: return tell_order(name, answer);
    case KILTESHVA_NO_ORDER: return tell_no_order(name, answer);
    case KILTESHVA_UNDECIDED: return tell_undecided(name, answer);
    case KILTESHVA_INVALID: return tell_refusal("Invalid", name, answer);
    default: return tell_refusal("Refused", name, answer);
    }
}

static enum status judge_file(const char *name, struct terms terms) {
    // A byte more than a file may have: it is then refused whatever follows.
    static uint8_t bytes[KILTESHVA_LONGEST_FILE + 1];
    size_t length = 0;
    FILE *file = fopen(name, "rb");
    if (file) length = fread(bytes, 1, sizeof bytes, file);
    if (!file || ferror(file)) {
        const char *why = strerror(errno);
        print_heading("Unreadable", name);
        printf("%s\n", why);
        if (file) fclose(file);
        return TROUBLE;
    }
    fclose(file);
    return judge(name, bytes, length, terms);
}

static bool read_model(const char *word, uint32_t *model) {
    bool linearizable = strcmp(word, "linearizable") == 0;
    *model = linearizable ? KILTESHVA_LINEARIZABLE : KILTESHVA_SEQUENTIAL;
    return linearizable || strcmp(word, "sequential") == 0;
}

static bool read_budget(const char *word, uint64_t *budget) {
    *budget = 0;
    for (const char *at = word; *at; at++) {
        if (*at < '0' || *at > '9') return false;
        uint64_t digit = (uint64_t)(*at - '0');
        if (*budget > (UINT64_MAX - digit) / 10) return false;
        *budget = *budget * 10 + digit;
    }
    return *word;
}

// Options come first. What stands behind the first file is a file too, whatever its name.
static bool read_options(char ***words, struct terms *terms) {
    for (; **words && strncmp(**words, "--", 2) == 0; *words += 2) {
        const char *option = (*words)[0], *value = (*words)[1];
        if (!value) return false;
        if (strcmp(option, "--model") == 0 && read_model(value, &terms->model)) continue;
        if (strcmp(option, "--budget") == 0 && read_budget(value, &terms->budget)) continue;
        return false;
    }
    return **words;
}

// Where a line could not be written, nobody was told of its file.
static int ended(enum status status) {
    if (fflush(stdout) == 0 && !ferror(stdout)) return (int)status;
    fprintf(stderr, "judge: can't write: %s\n", strerror(errno));
    return TROUBLE;
}

int main(int count, char **words) {
    if (count == 2 && strcmp(words[1], "--made-of") == 0) {
        puts(kilteshva_made_of);
        return ended(GREEN);
    }
    struct terms terms = {.model = KILTESHVA_LINEARIZABLE, .budget = 1000000000};
    char **files = words + (count > 0);
    if (!read_options(&files, &terms)) {
        fputs(usage, stderr);
        return TROUBLE;
    }
    bool came_to[] = {[GREEN] = false, [RED] = false, [TROUBLE] = false, [OPEN] = false};
    for (; *files; files++) came_to[judge_file(*files, terms)] = true;
    return ended(came_to[TROUBLE] ? TROUBLE : came_to[RED] ? RED : came_to[OPEN] ? OPEN : GREEN);
}
