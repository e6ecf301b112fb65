/* Fuzzes lookups, reads, views and pages: several questions to one card. */
#include "fuzz.h"
#include "judge_c.h"

int LLVMFuzzerTestOneInput(const uint8_t *bytes, size_t length);

int LLVMFuzzerTestOneInput(const uint8_t *bytes, size_t length) {
    struct drawn from = {bytes, length};
    struct words card = draw_card(&from);
    uint32_t judged = judge_c(card.at, card.count);
    for (int i = 0; i < 4; i++) {
        struct question asked = draw_question(&from);
        size_t room = draw_byte(&from);
        ask(card, judged, asked, room);
        ask(card, judged, (struct question){asked.term, GI_LOWEST, GI_HIGHEST}, room);
    }
    words_free(card);
    return 0;
}
