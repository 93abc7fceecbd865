/* Where 1,000 bytes from offset 900 on of a stream lie. */
#include <inttypes.h>
#include <stdio.h>
#include "archthimble.h"

int main(void) {
    const uint8_t list[] = {0x11, 0x02, 0x0a, 0x11, 0x01, 0xfe, 0x01, 0x03, 0x11, 0x02, 0x05, 0x00};
    uint64_t reader[ARCHTHIMBLE_READER], out[ARCHTHIMBLE_OUT], store[9];
    uint64_t no = archthimble_open(list, sizeof list, 512, 4000, reader, 16, out, 8);
    if (!no) no = archthimble_seek(list, sizeof list, reader, 16, ARCHTHIMBLE_FROM_START, 900, out, 8);
    if (!no) no = archthimble_read(list, sizeof list, reader, 16, 1000, store, 9, out, 8);
    if (no) return printf("refused %" PRIu64 "\n", no), 1;
    for (uint64_t *span = store; span < store + 3 * out[0]; span += 3)
        printf("%s %" PRIu64 ", %" PRIu64 " bytes\n", span[2] ? "byte" : "hole", span[0], span[1]);
}
