// The header in C++: it compiles, twice included, and its call and its digest link.
#include "../kilteshva.h"

#include <cstdio>
#include <cstring>

#include "../kilteshva.h"

int main() {
    const uint8_t file[] = "RAW1\x00\x82\x01\x00\x01\x02\x00\x84\x01\x03";
    uint8_t answer[KILTESHVA_ANSWER];
    // The literal's closing 0 is the file's last byte.
    uint32_t result = kilteshva_judge(file, sizeof file, KILTESHVA_LINEARIZABLE, 2, answer, sizeof answer);
    bool right = result == KILTESHVA_ANSWERED && kilteshva_is_answer(answer) && kilteshva_attempts(answer) == 2 &&
                 kilteshva_place(answer) == 0 && answer[KILTESHVA_AT_VERDICT] == KILTESHVA_ORDER &&
                 kilteshva_meaning(answer[KILTESHVA_AT_REFUSAL]) == nullptr && std::strlen(kilteshva_made_of) == 64;
    if (!right) std::fprintf(stderr, "failed: trace 14 from C++\n");
    std::printf("%d passed, %d failed\n", right, !right);
    return !right;
}
