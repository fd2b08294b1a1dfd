// half TEXT COMMAND..: runs COMMAND with a standard input that holds TEXT, does not block, and never ends while the command runs.
#include <fcntl.h>
#include <string.h>
#include <sys/wait.h>
#include <unistd.h>

int main(int argc, char **argv) {
    int ends[2];
    if (argc < 3 || pipe(ends) != 0 || fcntl(ends[0], F_SETFL, O_NONBLOCK) != 0) return 2;
    if (write(ends[1], argv[1], strlen(argv[1])) != (ssize_t)strlen(argv[1])) return 2;
    pid_t child = fork();
    if (child == 0) {
        dup2(ends[0], 0);
        execvp(argv[2], argv + 2);
        _exit(127);
    }
    int status = 0;
    return child < 0 || waitpid(child, &status, 0) != child || !WIFEXITED(status) ? 2 : WEXITSTATUS(status);
}
