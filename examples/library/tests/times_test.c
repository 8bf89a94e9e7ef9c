#include <stdio.h>
#include "calc/calc.h"

int main(void) {
    if (times(2, 3) != 6) return 1;
    puts("times: 2 * 3 is 6");
    return 0;
}
