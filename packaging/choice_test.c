/* The choice of packaging/choice.c between three bodies that say which they are, beside what the compiler's own library says
   of the processor; of a vendor that it does not know it says nothing. Prints the level. */
#include <stdio.h>

int which_x86_64(void) { return 1; }
int which_x86_64_v2(void) { return 2; }
int which_x86_64_v3(void) { return 3; }
int which(void);

int main(void) {
    int wanted = __builtin_cpu_supports("x86-64-v3") ? 3 : __builtin_cpu_supports("x86-64-v2") ? 2 : 1;
    printf("%d\n", which());
    return __builtin_cpu_supports("sse2") && which() != wanted;
}
