/* Writes the samples' sheet from C into buffers of three lengths, and is refused. Ends in 0 if every answer is right. */
#include "codec_ffi.h"
#include <string.h>

enum { ROOM = 16384, BEHIND = 6 };

static const char text[] = "SAMPLE FAMILIES RECORDS FILTERED CALLED BASES DUPLEX DIFFER PPM\n3 1 2 0 1 15 5 1 200000\n95 2 4 2 1 15 5 0 0\n";

static struct codec_ffi_samples samples;
static uint8_t buffer[ROOM + BEHIND];

/* Whether the call answers this, and all but the text is as it was. */
static int written(size_t room, uint32_t number, uint64_t length) {
    memset(buffer, 0xa5, sizeof buffer);
    struct codec_ffi_sheet_answer answer = codec_ffi_sheet(&samples, buffer, room);
    for (size_t at = length; at < sizeof buffer; at++)
        if (buffer[at] != 0xa5) return 0;
    return answer.number == number && answer.length == length && !memcmp(buffer, text, length);
}

int main(void) {
    if (!written(ROOM, 0, 64)) return 1;
    samples.ledgers[3] =
        (struct codec_ffi_ledger){.families = 1, .records = 2, .duplexes = 1, .bases = 15, .duplex_bases = 5, .disagreements = 1};
    samples.ledgers[95] =
        (struct codec_ffi_ledger){.families = 2, .records = 4, .reasons = {0, 0, 0, 0, 0, 2}, .duplexes = 1, .bases = 15, .duplex_bases = 5};
    if (!written(ROOM, 0, sizeof text - 1) || !written(ROOM + BEHIND, 0, 108)) return 2;
    if (!written(ROOM - 1, 21, 0) || !written(0, 21, 0)) return 3;
    samples.ledgers[50].used = (1ull << 41) + 1;
    if (!written(ROOM, 10, 0) || !written(ROOM - 1, 10, 0)) return 4;
    return 0;
}
