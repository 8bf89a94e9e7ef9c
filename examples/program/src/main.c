#include "greeting.h"

int main(int count, char **words) {
    greet(count > 1 ? words[1] : "world");
    return 0;
}
