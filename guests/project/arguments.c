// What `main` is given: no arguments and no environment, whatever a constructor left in the registers. It needs no C library.
__attribute__((constructor)) static int leave_a_number(void)
{
    return 41;
}

int main(int argc, char **argv, char **environment)
{
    return argc == 0 && argv[0] == 0 && environment[0] == 0 ? 0 : 1;
}
