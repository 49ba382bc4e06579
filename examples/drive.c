#include <stdio.h>
#include <stdlib.h>
#include <string.h>
#include <sys/wait.h>
#include <unistd.h>

static FILE *lines, *replies;

/* Sends a line that is answered by one, and gives that without its line feed. */
static const char *answer(const char *line) {
    static char *reply;
    static size_t room;
    fprintf(lines, "%s\n", line);
    fflush(lines);
    if (getline(&reply, &room, replies) < 0) exit(1);
    reply[strcspn(reply, "\n")] = 0;
    return reply;
}

int main(void) {
    const char *told[] = {"cell x span", "cell y span", "cell z span", "attach sum x y z",
                          "tell morning x 3..5", "tell evening y 10"};
    int to[2], from[2], status = 0;
    if (pipe(to) || pipe(from)) return 1;
    pid_t child = fork();
    if (child == 0) {
        dup2(to[0], 0);
        dup2(from[1], 1);
        close(to[0]), close(to[1]), close(from[0]), close(from[1]);
        execlp("propbench", "propbench", (char *)0);
        _exit(127);
    }
    close(to[0]), close(from[1]);
    lines = fdopen(to[1], "w");
    replies = fdopen(from[0], "r");
    for (int i = 0; i < 6; i++)
        if (strcmp(answer(told[i]), "ok")) return 1;
    printf("%s\n", answer("why z"));
    printf("%s\n", answer("ask w"));
    fclose(lines);
    waitpid(child, &status, 0);
    printf("status %d\n", WEXITSTATUS(status));
    return 0;
}
