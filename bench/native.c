/* Starts a program of the benchmarks on the machine at hand, as core 0 of one core. */
int run_program(long core, long cores);

int main(void)
{
    return run_program(0, 1);
}
