// Checks that are counted. A check that fails is named.
#pragma once

#include <stdbool.h>
#include <stdio.h>

static int passed, failed;

static void check(bool holds, const char *name) {
    if (holds) passed++;
    else {
        failed++;
        fprintf(stderr, "failed: %s\n", name);
    }
}

static int closing(void) {
    printf("%d passed, %d failed\n", passed, failed);
    return failed > 0;
}
