/*
 * A loop of read and write, a yardstick of bench/run: what any program pays that takes a stream into its own memory and
 * writes it from there. `cat` pays less where the kernel copies from file to file for it, once in place of twice.
 *
 *     copy < stream > stream
 *
 * It reads and writes in pieces of 1,024 packets.
 */
#include <unistd.h>

enum { piece_size = 188 * 1024 };

static unsigned char piece[piece_size];

int main(void)
{
    for (;;) {
        ssize_t have = read(STDIN_FILENO, piece, sizeof piece);
        if (have < 0)
            return 3;
        if (have == 0)
            return 0;
        for (ssize_t at = 0; at < have;) {
            ssize_t count = write(STDOUT_FILENO, piece + at, (size_t)(have - at));
            if (count <= 0)
                return 4;
            at += count;
        }
    }
}
