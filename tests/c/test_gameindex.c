/* Tests of the C functions, called as a host calls them. Cards are written out
 * word by word. Prints each failing check and, as its last line, 'N passed, M
 * failed'. */
#include "small_cards.h"

int passed;
int failed;

int main(void) {
    test_format_judge();
    test_step();
    test_forecast();
    test_lookup();
    test_page();
    test_scores();
    test_cases();
    test_arrival();
    printf("%d passed, %d failed\n", passed, failed);
    return failed == 0 ? 0 : 1;
}
