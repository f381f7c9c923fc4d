/* frames FILE: asks bonsai-all to compress every class of FILE, and reads its frames from a pipe.
   A frame is a line "class N STATUS LENGTH" and LENGTH bytes: the compressed network where STATUS is 0, else the reason.
   Ends with the status of bonsai-all: 0, or 8 where the STATUS of a class is not 0. 1 where an answer is cut. */
#include <stdio.h>
#include <stdlib.h>
#include <sys/wait.h>
#include <unistd.h>

int main(int count, char **words)
{
    int ends[2], status, is_whole = 1;
    unsigned long number, answer, length;
    char head[64];

    if (count != 2 || pipe(ends))
        return 2;
    pid_t asked = fork();
    if (asked == 0) {
        dup2(ends[1], 1);
        close(ends[0]);
        close(ends[1]);
        execlp("bonsai-all", "bonsai-all", words[1], "compress", (char *)0);
        _exit(127);
    }
    close(ends[1]);
    FILE *frames = fdopen(ends[0], "r");
    if (asked < 0 || !frames)
        return 1;
    while (is_whole && fgets(head, sizeof head, frames)) {
        char *text = NULL;
        is_whole = sscanf(head, "class %lu %lu %lu", &number, &answer, &length) == 3 && (text = malloc(length + 1)) &&
                   fread(text, 1, length, frames) == length;
        if (is_whole) printf("class %lu: status %lu, %lu bytes\n", number, answer, length);
        free(text);
    }
    fclose(frames); /* (bonsai-all ends also where it is not read to its end) */
    if (waitpid(asked, &status, 0) < 0 || !WIFEXITED(status) || !is_whole)
        return 1;
    return WEXITSTATUS(status);
}
