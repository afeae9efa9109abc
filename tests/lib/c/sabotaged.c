/* Becomes the program at PROGRAM, by its own arguments, with the library at LIBRARY before the C library, which SABOTAGE tells what
   to do. Where OPTION isn't empty, that option has the value VALUE whatever was said. The variable LOST is taken away. It asks for
   no memory, as allocations are counted. */
#include <stdio.h>
#include <string.h>
#include <unistd.h>

#define MOST 4096

static char preload[MOST], *variables[MOST];

static int begins(const char *text, const char *with)
{
    return strncmp(text, with, strlen(with)) == 0;
}

static void change_arguments(char **arguments)
{
    for (; arguments[0] != NULL && arguments[1] != NULL; arguments++)
        if (OPTION[0] != '\0' && strcmp(arguments[0], OPTION) == 0)
            arguments[1] = VALUE;
}

int main(int count, char **arguments, char **before)
{
    int kept = 0, is_loaded = strcmp(LOST, "LD_PRELOAD") != 0;
    (void)count;
    strcpy(preload, "LD_PRELOAD=" LIBRARY);
    for (; *before != NULL && kept < MOST - 3; before++) {
        if (begins(*before, "LD_PRELOAD=") && strlen(*before) + sizeof LIBRARY < MOST - 20)
            strcat(strcat(preload, ":"), *before + strlen("LD_PRELOAD="));
        else if (LOST[0] == '\0' || !begins(*before, LOST "="))
            variables[kept++] = *before;
    }
    variables[kept++] = "SABOTAGE=" SABOTAGE;
    if (is_loaded)
        variables[kept++] = preload;
    change_arguments(arguments);
    execve(PROGRAM, arguments, variables);
    perror(PROGRAM);
    return 127;
}
