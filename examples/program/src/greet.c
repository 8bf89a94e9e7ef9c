#include <stdio.h>
#include "greeting.h"

void greet(const char *whom) { printf("%s, %s\n", GREETING, whom); }
