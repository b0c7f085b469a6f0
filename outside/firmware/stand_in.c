/* The two functions with right answers, and with the mistake that the board has no room for: the check keeps a copy of the block as words. The test is linked with
 * these in place of the archive once, and must refuse them for their stack alone. */
#include "model.h"
#include "siren_firmware.h"

uint8_t siren_block_check(const uint8_t *block, size_t length)
{
    volatile uint32_t words[126];
    uint32_t s = 0, t = 0;
    if (length != 512)
        return 1;
    for (int k = 0; k < 126; k++)
        words[k] = model_word(block + 4 * k);
    for (int k = 0; k < 126; k++) {
        s += words[k];
        t += s;
    }
    return model_word(block + 504) == s && model_word(block + 508) == t ? 0 : 2;
}

uint8_t siren_site_mark(uint64_t site, uint64_t confirmed_drill, uint64_t confirmed_live)
{
    return model_mark(site, confirmed_drill, confirmed_live);
}
