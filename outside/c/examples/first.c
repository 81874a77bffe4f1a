#include "kundratu_pool.h"
#include <stdio.h>

int main(void) {
    kdr_handle mine = KDR_HANDLE_EMPTY;
    size_t number;
    if (kdr_pool_new(64, &mine) == KDR_DONE && kdr_pool_pull(&mine, &number) == KDR_DONE)
        printf("place %zu is held\n", number);
    return kdr_pool_drop(&mine); /* returns the place; the pool ends with its last handle */
}
