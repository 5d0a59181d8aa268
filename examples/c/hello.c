/* Writes a line to the console. */
#include "zsim.h"

int main(void)
{
    print("hello, world\n");
    return 0;
}
