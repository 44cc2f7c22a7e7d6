/*
 * A plain filter in C, the yardstick of bench/run: it keeps the packets of one PID, or all but those with -v.
 *
 *     filter [-v] PID < stream > stream
 *
 * It reads and writes in pieces of about one mebibyte, and copies each packet that it keeps once.
 */
#include <stdio.h>
#include <stdlib.h>
#include <string.h>
#include <unistd.h>

enum { packet_size = 188, packets_a_piece = 5577 };

static unsigned char taken[packet_size * packets_a_piece];
static unsigned char kept[packet_size * packets_a_piece];

static void write_whole(const unsigned char *piece, size_t length)
{
    while (length > 0) {
        ssize_t count = write(STDOUT_FILENO, piece, length);
        if (count <= 0)
            exit(4);
        piece += count;
        length -= (size_t)count;
    }
}

int main(int argc, char **argv)
{
    int negate = argc == 3 && strcmp(argv[1], "-v") == 0;
    if (argc != 2 + negate)
        return 2;
    unsigned pid = (unsigned)strtoul(argv[1 + negate], NULL, 0);

    size_t have = 0;
    for (;;) {
        ssize_t count = read(STDIN_FILENO, taken + have, sizeof taken - have);
        if (count < 0)
            return 3;
        if (count == 0)
            return 0;
        have += (size_t)count;

        size_t at = 0, length = 0;
        for (; at + packet_size <= have; at += packet_size) {
            const unsigned char *packet = taken + at;
            if (packet[0] != 0x47)
                return 5;
            unsigned found = (packet[1] & 0x1Fu) << 8 | packet[2];
            if ((found == pid) != negate) {
                memcpy(kept + length, packet, packet_size);
                length += packet_size;
            }
        }
        write_whole(kept, length);
        memmove(taken, taken + at, have - at);
        have -= at;
    }
}
