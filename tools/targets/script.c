/* The program strm_run as a target: its main runs once for each input. It must end with status 0 or 1, as there is memory. */
#include "target.h"

#include <fcntl.h>

/* main of crates/strm_run, under another name. */
int program_main(int count, char **words);

int main(int count, char **words)
{
    if (getenv("__AFL_SHM_ID")) dup2(open("/dev/null", O_WRONLY), 1);
    target_begins();
    while (target_goes_on()) {
        int status = program_main(count, words);
        MUST(status == 0 || status == 1, "a status that is neither 0 nor 1");
        if (!getenv("__AFL_SHM_ID")) return status;
    }
    return 0;
}
