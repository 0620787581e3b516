// Runs a program with a file as its standard input and one as its standard output: measure LIMIT INPUT OUTPUT PROGRAM WORDS..
// Prints the seconds that it took, its peak memory in KiB and its status. After LIMIT seconds it is ended: status -1.
#include <chrono>
#include <csignal>
#include <cstdio>
#include <cstdlib>

#include <fcntl.h>
#include <sys/resource.h>
#include <sys/wait.h>
#include <unistd.h>

int main(int count, char **words) {
    if (count < 5) return 2;
    const auto began = std::chrono::steady_clock::now();
    const pid_t child = fork();
    if (child == 0) {
        const int input = open(words[2], O_RDONLY), output = open(words[3], O_WRONLY | O_CREAT | O_TRUNC, 0666);
        if (input < 0 || output < 0 || dup2(input, 0) < 0 || dup2(output, 1) < 0) _exit(127);
        alarm(static_cast<unsigned>(std::atoi(words[1])));
        execvp(words[4], words + 4);
        _exit(127);
    }
    int ended = 0;
    rusage usage{};
    if (child < 0 || wait4(child, &ended, 0, &usage) < 0) return 1;
    const std::chrono::duration<double> seconds = std::chrono::steady_clock::now() - began;
    const bool is_late = WIFSIGNALED(ended) && WTERMSIG(ended) == SIGALRM;
    const int status = is_late ? -1 : WIFEXITED(ended) ? WEXITSTATUS(ended) : 128 + WTERMSIG(ended);
    std::printf("%.4f %ld %d\n", seconds.count(), usage.ru_maxrss, status);
}
