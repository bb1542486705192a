/* The least program that embeds the kernel: it starts one and asks the first task for its own number. */
#include <stdio.h>
#include "bredonych.h"

int main(void)
{
    static uint8_t image[BREDONYCH_IMAGE], areas[BREDONYCH_AREAS];
    const uint8_t record[BREDONYCH_REQUEST] = {BREDONYCH_MY_TID};
    uint8_t answer[BREDONYCH_ANSWER];

    kernel_start(BREDONYCH_ONE_WAITS, 16, 0, image, sizeof image);
    kernel_step(BREDONYCH_ONE_WAITS, image, sizeof image, areas, sizeof areas, record, sizeof record, answer, sizeof answer);
    printf("verdict %d, next task %d, value %d\n", answer[0], answer[4], answer[12]);
    return 0;
}
