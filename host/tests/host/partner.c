/* Exits with 0, or with the number of the check that failed. */
#include "codec_ffi.h"
#include <string.h>

static const char ours[] = "BA QA DA EA BB QB DB EB\nA 30 5 1 C 20 4 1\n";

static struct codec_ffi_partner_answer check(const char *a, const char *b) {
    return codec_ffi_check_table((const uint8_t *)a, strlen(a), (const uint8_t *)b, strlen(b));
}

int main(void) {
    struct codec_ffi_partner_answer a = check(ours, "BASE QUAL DEPTH ERR\nA 10 9 4\n");
    if (a.kind != CODEC_FFI_PARTNER_ACCEPTED || a.number != 0 || a.line != 0 || a.field != 0 || a.table != 0) return 1;
    a = check(ours, "BASE QUAL DEPTH ERR\nA 10 9 5\n");
    if (a.kind != CODEC_FFI_PARTNER_WRONG || a.number != 0 || a.line != 2 || a.field != 4 || a.table != 0) return 2;
    a = check("", "");
    if (a.kind != CODEC_FFI_PARTNER_REFUSED || a.number != 27 || a.line != 1 || a.field != 0 || a.table != 1) return 3;
    a = check(ours, "BASE QUAL DEPTH ERR\nA 10 9 4");
    if (a.kind != CODEC_FFI_PARTNER_REFUSED || a.number != 27 || a.line != 2 || a.field != 0 || a.table != 2) return 4;
    a = check(ours, "BASE QUAL DEPTH ERR\n");
    if (a.kind != CODEC_FFI_PARTNER_REFUSED || a.number != 28 || a.line != 0 || a.field != 0 || a.table != 0) return 5;
    return 0;
}
