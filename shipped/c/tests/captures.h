// Captures of a register.
#pragma once

#include <stdint.h>
#include <string.h>

struct capture {
    uint8_t bytes[1024];
    size_t length;
};

// An event is the thread's number doubled, one more for a return, and what is invoked or returned.
enum { WRITE = 0, READ = 1, WRITE_OK = 0, READ_OK = 1 };

static inline struct capture capture_of(const char *bytes, size_t length) {
    struct capture capture = {.length = length};
    memcpy(capture.bytes, bytes, length);
    return capture;
}

// Of a string with its bytes, zeros among them.
#define CAPTURE(string) capture_of(string, sizeof string - 1)

// A register that starts at 0, with these events.
#define REGISTER(events) CAPTURE("RAW1\x00\x00" events)

// The register starts at 65; thread 0 invokes Read; thread 1 writes 66 (trace 14 of document 01).
#define TRACE_14 CAPTURE("RAW1\x00\x82\x01\x00\x01\x02\x00\x84\x01\x03\x00")

// The register starts at 65; thread 0 writes 66; thread 1 then reads 65 (trace 5).
#define STALE_READ CAPTURE("RAW1\x00\x82\x01\x00\x00\x84\x01\x01\x00\x02\x01\x03\x01\x82\x01")

static inline void add(struct capture *capture, uint8_t byte) {
    capture->bytes[capture->length++] = byte;
}

// So many Reads of thread 0, each told 0.
static inline struct capture reads(int count) {
    struct capture capture = REGISTER("");
    while (count-- > 0) {
        add(&capture, 0);
        add(&capture, READ);
        add(&capture, 1);
        add(&capture, READ_OK);
        add(&capture, 0);
    }
    return capture;
}

// Eight rounds in which each thread writes 1 and all overlap, 64 operations; the last one is told what a Read would be.
static inline struct capture long_search(void) {
    struct capture capture = REGISTER("");
    for (int round = 0; round < 8; round++) {
        for (uint8_t thread = 0; thread < 8; thread++) {
            add(&capture, 2 * thread);
            add(&capture, WRITE);
            add(&capture, 2);
        }
        for (uint8_t thread = 0; thread < 8; thread++) {
            add(&capture, 2 * thread + 1);
            add(&capture, WRITE_OK);
        }
    }
    capture.bytes[capture.length - 1] = READ_OK;
    add(&capture, 4);
    return capture;
}
