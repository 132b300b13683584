/* What programs of csmith need to run: the checksum over their variables, in C that tools/prepare takes. The functions of safe arithmetic
   are those of csmith's own safe_math.h, up to those for floating types; tools/check_prepare copies them beside this file. */
#include <stdint.h>
#include <limits.h>

#define STATIC static
#define FUNC_NAME(x) (safe_##x)
#define UNDEFINED(value) (value)
#define LOG_INDEX
#define LOG_EXEC
#include "safe_math_integers.h"

static uint32_t crc32_tab[256];
static uint32_t crc32_context = 0xFFFFFFFFUL;

static void crc32_gentab(void)
{
    uint32_t crc;
    const uint32_t poly = 0xEDB88320UL;
    int i, j;
    for (i = 0; i < 256; i++) {
        crc = i;
        for (j = 8; j > 0; j--) {
            if (crc & 1) {
                crc = (crc >> 1) ^ poly;
            } else {
                crc >>= 1;
            }
        }
        crc32_tab[i] = crc;
    }
}

static void crc32_byte(uint8_t b)
{
    crc32_context = ((crc32_context >> 8) & 0x00FFFFFF) ^ crc32_tab[(crc32_context ^ b) & 0xFF];
}

static void crc32_8bytes(uint64_t val)
{
    int k;
    for (k = 0; k < 8; k++)
        crc32_byte((val >> (8 * k)) & 0xff);
}

#define transparent_crc(value, name, flag) crc32_8bytes(value)
#define platform_main_begin()
#define platform_main_end(crc, flag) printf("checksum = %x\n", (uint32_t)(crc))
