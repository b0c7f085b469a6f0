/* How a controller uses the two functions: check a block before it is believed, and ask the mark of each site after a vote. The block is lent memory and no part of
 * the stack, of which the board has 1,024 bytes for everything; what is printed is for whoever reads this, and no board prints. */
#include <stdio.h>

#include "model.h"
#include "siren_firmware.h"

#define SITES 4

static uint8_t block[512];

static struct {
    uint8_t as_mailed, damaged, cut_short, mark[SITES];
} seen;

/* What the controller does. outside/firmware/test.c calls it on a painted stack. */
void controller(void)
{
    const uint64_t confirmed_drill = 0x7, confirmed_live = 0x4;

    model_one_site(block);
    seen.as_mailed = siren_block_check(block, sizeof block);
    block[8] ^= 2;
    seen.damaged = siren_block_check(block, sizeof block);
    seen.cut_short = siren_block_check(block, 511);
    for (uint64_t site = 0; site < SITES; site++)
        seen.mark[site] = siren_site_mark(site, confirmed_drill, confirmed_live);
}

int main(void)
{
    controller();
    printf("block as mailed: %u\n", seen.as_mailed);
    printf("one bit damaged: %u\n", seen.damaged);
    printf("cut short:       %u\n", seen.cut_short);
    for (unsigned site = 0; site < SITES; site++)
        printf("site %u: %s\n", site, seen.mark[site] == 1 ? "drill" : "live");
    return 0;
}
