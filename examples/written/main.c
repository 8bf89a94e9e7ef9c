#include <stdio.h>
#include "config.h"

int main(void) {
    printf("%s %s, at most %d\n", NAME, VERSION, MOST);
    return 0;
}
