#define CALC_VERSION "1.0"

int add(int a, int b);
int times(int a, int b);
