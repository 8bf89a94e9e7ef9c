#include <stdio.h>
#include "calc/calc.h"

int main(void) {
    printf("calc %s: 2 + 3 is %d\n", CALC_VERSION, add(2, 3));
    return 0;
}
