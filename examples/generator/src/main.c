#include <stdio.h>
#include "colours.h"

int main(void) {
    for (int i = 0; i < COLOURS; i++)
        puts(colours[i]);
    return 0;
}
