#include <stdio.h>
#include "kind.h"

int main(void) {
    puts(kind());
    return 0;
}
