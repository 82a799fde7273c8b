/* Station 0 opens a series and draws; it crashes before it commits, restarts and draws again; then the token goes to station 3, which goes on. */
#include <stdio.h>

#include "druvisha.h"

static druvisha_plant plant;
static uint32_t out[DRUVISHA_OUT];

/* One step, told in a line: what happens, the answer, and after a COMMIT the serials. */
static uint32_t step(const char *what, druvisha_event event)
{
    druvisha_answer answer = druvisha_plant_step(&plant, out, event);
    printf("%-44s code %2u, value %u", what, answer.code, answer.value);
    if (event.kind == DRUVISHA_COMMIT && answer.code == DRUVISHA_DONE) {
        for (uint32_t i = 0; i < answer.value; i++) {
            const uint32_t *draw = out + 3 * i;
            printf("; series %u: %u to %u", draw[0], draw[1], draw[1] + draw[2] - 1);
        }
    }
    putchar('\n');
    return answer.value;
}

/* A job at a station draws from series 5 and commits. */
static void print_forms(uint32_t station, uint32_t count)
{
    step("a job begins", (druvisha_event){DRUVISHA_BEGIN, 0, station, 0, 0});
    step("  it locks the series", (druvisha_event){DRUVISHA_LOCKX, 0, 5, 0, 0});
    step("  it draws", (druvisha_event){DRUVISHA_DRAW, 0, 5, count, 0});
    step("  it commits", (druvisha_event){DRUVISHA_COMMIT, 0, 0, 0, 0});
}

static void tell_holders(void)
{
    druvisha_holding holding = druvisha_plant_holders(&plant, 5);
    printf("who holds series 5: code %u, set %02x, %u of them, lowest %u\n", holding.code, holding.set, holding.count, holding.lowest);
}

int main(void)
{
    druvisha_plant_empty(&plant);
    step("series 5 opens at station 0: 1001 to 1100", (druvisha_event){DRUVISHA_OPEN, 5, 1001, 1100, 0});
    print_forms(0, 40);

    step("a job begins", (druvisha_event){DRUVISHA_BEGIN, 0, 0, 0, 0});
    step("  it locks the series", (druvisha_event){DRUVISHA_LOCKX, 0, 5, 0, 0});
    step("  it draws", (druvisha_event){DRUVISHA_DRAW, 0, 5, 10, 0});
    step("station 0 crashes: its job is lost", (druvisha_event){DRUVISHA_CRASH, 0, 0, 0, 0});
    step("station 0 restarts", (druvisha_event){DRUVISHA_RESTART, 0, 0, 0, 0});
    print_forms(0, 5);

    uint32_t number = step("the token is sent to station 3", (druvisha_event){DRUVISHA_SEND, 5, 0, 3, 0});
    tell_holders();
    step("the GRANT arrives", (druvisha_event){DRUVISHA_GRANT, 5, 0, 3, number});
    step("the GRANT arrives once more", (druvisha_event){DRUVISHA_GRANT, 5, 0, 3, number});
    step("the ACK arrives", (druvisha_event){DRUVISHA_ACK, 5, 0, 3, number});
    tell_holders();
    step("station 0 can't draw any more: a job begins", (druvisha_event){DRUVISHA_BEGIN, 1, 0, 0, 0});
    step("  it locks the series", (druvisha_event){DRUVISHA_LOCKX, 1, 5, 0, 0});
    print_forms(3, 55);
    return 0;
}
