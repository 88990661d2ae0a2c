/* Exits with 0, or with the number of the check that failed. */
#include "codec_ffi.h"
#include <string.h>

static int same(struct codec_ffi_dispatcher a, struct codec_ffi_dispatcher b) {
    return memcmp(a.waiting, b.waiting, sizeof a.waiting) == 0 && a.last == b.last;
}

int main(void) {
    static const uint32_t added[] = {3, 3, 0, 7}, served[] = {0, 3, 7, 3};
    struct codec_ffi_dispatcher d = codec_ffi_fresh_dispatcher();
    struct codec_ffi_dispatch_answer a;
    for (int lane = 0; lane < 8; lane++)
        if (d.waiting[lane] != 0) return 1;
    if (d.last != 7) return 2;
    for (int i = 0; i < 4; i++) {
        a = codec_ffi_add(d, added[i]);
        if (a.kind != CODEC_FFI_DISPATCH_ADDED || a.lane != 0 || a.number != 0 || a.with != 0) return 3;
        d = a.dispatcher;
    }
    for (int i = 0; i < 4; i++) {
        a = codec_ffi_turn(d);
        if (a.kind != CODEC_FFI_DISPATCH_SERVED || a.lane != served[i] || a.dispatcher.last != served[i]) return 4;
        if (a.dispatcher.waiting[a.lane] + 1 != d.waiting[a.lane]) return 5;
        d = a.dispatcher;
    }
    a = codec_ffi_turn(d);
    if (a.kind != CODEC_FFI_DISPATCH_IDLE || !same(a.dispatcher, d)) return 6;
    a = codec_ffi_add(d, 8);
    if (a.kind != CODEC_FFI_DISPATCH_REFUSED || a.number != 22 || a.with != 0 || !same(a.dispatcher, d)) return 7;
    d.waiting[5] = 65535;
    a = codec_ffi_add(d, 5);
    if (a.kind != CODEC_FFI_DISPATCH_REFUSED || a.number != 23 || !same(a.dispatcher, d)) return 8;
    d.last = 8;
    a = codec_ffi_turn(d);
    if (a.kind != CODEC_FFI_DISPATCH_REFUSED || a.number != 22 || !same(a.dispatcher, d)) return 9;
    return 0;
}
