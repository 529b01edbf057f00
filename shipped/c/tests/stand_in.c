// A library in the judge's place. It gives what the file says, and so can give what the judge never does: the file's
// first byte is returned, and the others are laid into the buffer.
#include "../kilteshva.h"

#include <string.h>

const char kilteshva_made_of[] = "not the judge";

uint32_t kilteshva_judge(const uint8_t *file, size_t file_len, uint32_t model, uint64_t budget, uint8_t *answer,
                         size_t answer_len) {
    (void)model;
    (void)budget;
    size_t bytes = file_len - 1;
    memcpy(answer, file + 1, bytes < answer_len ? bytes : answer_len);
    return file[0];
}
