/* Does nothing: what qemu and valgrind take to start. */

int main(void)
{
    return 0;
}
