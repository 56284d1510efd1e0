#include <stdio.h>

static inline int square(int x)
{
    return x * x;
}

static inline int sum_of_squares(int n)
{
    int sum = 0;
    for (int i = 0; i < n; i++)
        sum += square(i);
    return sum;
}

int main(int argc, char **argv)
{
    printf("%s %d\n", argv[0], sum_of_squares(argc * 10));
    return 0;
}
