/* Sorts the bytes of each message, and sends it to the host; ends at an empty one, with how many it has sorted. */
#include "rk.h"

static unsigned done;

static void sort(unsigned char *bytes, unsigned length)
{
    for (unsigned i = 1; i < length; i++) {
        unsigned char moved = bytes[i];
        unsigned j = i;
        for (; j > 0 && bytes[j - 1] > moved; j--)
            bytes[j] = bytes[j - 1];
        bytes[j] = moved;
    }
}

int main(void)
{
    for (;;) {
        unsigned char *bytes = xrecvb();
        if (xlength(bytes) == 0)
            return (int)done;
        sort(bytes, xlength(bytes));
        xsend(bytes, HOST, 0);
        note(++done);
    }
}
