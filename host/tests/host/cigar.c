/* Exits with 0, or with the number of the check that failed. */
#include "codec_ffi.h"
#include <string.h>

enum { ROOM = 2048 };

static uint32_t output[ROOM], back[ROOM];

int main(void) {
    /* 5M3I2D4M, 4=1X3I2D3=1X */
    static const uint32_t plain[] = {5 << 4 | 0, 3 << 4 | 1, 2 << 4 | 2, 4 << 4 | 0};
    static const uint32_t extended[] = {4 << 4 | 7, 1 << 4 | 8, 3 << 4 | 1, 2 << 4 | 2, 3 << 4 | 7, 1 << 4 | 8};
    static const uint8_t read[] = "AAAAACCCGGGG", reference[] = "AAAATTTGGGC";
    struct codec_ffi_cigar_answer a = codec_ffi_extend_cigar(plain, 4, read, 12, reference, 11, output, ROOM);
    if (a.kind != CODEC_FFI_CIGAR_WRITTEN || a.number != 0 || a.with != 0 || a.count != 6) return 1;
    if (memcmp(output, extended, sizeof extended) != 0 || output[6] != 0) return 2;
    a = codec_ffi_flatten_cigar(output, 6, back, ROOM);
    if (a.kind != CODEC_FFI_CIGAR_WRITTEN || a.count != 4) return 3;
    if (memcmp(back, plain, sizeof plain) != 0 || back[4] != 0) return 4;
    a = codec_ffi_extend_cigar(extended, 6, read, 12, reference, 11, back, ROOM);
    if (a.kind != CODEC_FFI_CIGAR_REFUSED || a.number != 24 || a.with != 0 || a.count != 0) return 5;
    a = codec_ffi_extend_cigar(plain, 4, read, 11, reference, 11, back, ROOM);
    if (a.kind != CODEC_FFI_CIGAR_REFUSED || a.number != 25) return 6;
    a = codec_ffi_flatten_cigar(output, 6, back, ROOM - 1);
    if (a.kind != CODEC_FFI_CIGAR_REFUSED || a.number != 26) return 7;
    if (memcmp(back, plain, sizeof plain) != 0) return 8;
    return 0;
}
