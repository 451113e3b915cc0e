/* The same row of calls on every processor; what it prints must be the same to the last letter. */
#include "calls.h"

#include <stdio.h>

int main(void) {
    odd_arguments();
    verdicts();
    hostile_blocks();
    damaged_blocks();
    grown_blocks();
    serviced_blocks();
    if (tell_answers()) return 0;
    printf("an answer did not come, or one came that the call does not have\n");
    return 1;
}
