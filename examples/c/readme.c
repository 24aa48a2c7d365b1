/* Behind README.md's lines 'From C', which examples/c/run puts in front of this: calls `show` with a payload and with that payload cut short,
 * once by each of its bytes. The bytes stand in front of a page that may not be touched, so that reading past them ends the program. */
#include <stdlib.h>
#include <string.h>
#include <sys/mman.h>

enum { PAGE = 65536 };

int main(void) {
    static const uint8_t payload[] = {
        0x80, 0x00, 0x00, 0x00, 0x00, 0x00, 0x00, 0x10,                                                 /* flags, entries length */
        0x01, 0x00, 0x00, 0x10, 0x12, 0x34, 0x56, 0x78, 0x01, 0x00, 0x0e, 0x10, 0x01, 0x00, 0x00, 0x00, /* the entry */
        0x00, 0x00, 0x00, 0x0c,                                                                         /* options length */
        0x00, 0x09, 0x04, 0x00, 0xc0, 0xa8, 0x01, 0x01, 0x00, 0x06, 0x1f, 0x90,                         /* the option */
    };
    uint8_t *pages = mmap(NULL, 2 * PAGE, PROT_READ | PROT_WRITE, MAP_PRIVATE | MAP_ANONYMOUS, -1, 0);
    if (pages == MAP_FAILED || mprotect(pages + PAGE, PAGE, PROT_NONE) != 0)
        return 2;
    for (size_t cut = 0; cut <= sizeof payload; cut++) {
        size_t length = sizeof payload - cut;
        uint8_t *end = pages + PAGE;
        memcpy(end - length, payload, length);
        if (show(end - length, length) != (cut == 0 ? 0 : 1))
            return 1;
    }
    puts("every length answered");
    return 0;
}
