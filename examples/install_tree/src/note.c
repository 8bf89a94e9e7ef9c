#include <stdio.h>

int main(void) {
    puts("a note");
    return 0;
}
