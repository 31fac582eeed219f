/* Runs a program on the bytes of standard input, at most 65,536, behind which every read fails: its input is a pipe that does not block and whose
   other end stays open. */
#include <fcntl.h>
#include <unistd.h>

int main(int argc, char **argv)
{
    static char bytes[65536];
    size_t length = 0;
    ssize_t n;
    int ends[2];

    while ((n = read(0, bytes + length, sizeof bytes - length)) > 0)
        length += (size_t)n;
    if (argc < 2 || n < 0 || pipe(ends) != 0)
        return 2;
    if (write(ends[1], bytes, length) != (ssize_t)length)
        return 2;
    if (fcntl(ends[0], F_SETFL, O_NONBLOCK) < 0 || dup2(ends[0], 0) != 0)
        return 2;
    execv(argv[1], argv + 1);
    return 2;
}
