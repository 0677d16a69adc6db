/* The program strm_storm, of which a run-time library looks for races: main stands in C, so that the library's begins first. */
int program_main(int count, char **words);

int main(int count, char **words)
{
    return program_main(count, words);
}
