#include <stdio.h>
#include "calc/calc.h"

int main(void) {
    if (add(2, 3) != 5) return 1;
    puts("add: 2 + 3 is 5");
    return 0;
}
