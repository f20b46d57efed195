#include <stdio.h>
#define TWICE(x) ((x) + (x)) /* a call
   that crosses lines */

int main(void)
{
    int count = TWICE(3) \
        + 0x1p-3;
    printf("%d\n", count); // done
    return 0;
}
