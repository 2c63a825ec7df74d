/* The modes of the second program that a benchmark does not run. */
int generate(int argc, char **argv);
int big(int argc, char **argv);
int selftest(void);

int generate(int argc, char **argv)
{
    (void)argc;
    (void)argv;
    return 2;
}

int big(int argc, char **argv)
{
    (void)argc;
    (void)argv;
    return 2;
}

int selftest(void)
{
    return 2;
}
