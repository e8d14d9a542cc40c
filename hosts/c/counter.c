/* Two spaces in one program: the second calls a counter of the first and gives it back, and then it can be withdrawn. */
#include "masttomato.h"
#include <stdio.h>
#include <stdlib.h>

static NobHandle owner = NOB_EMPTY, caller = NOB_EMPTY; /* space 1 and space 2 */
static NobTold told;                                    /* what came of what was asked last */
static uint8_t room[64 * (32 + 16384)];                 /* for the frames of any Transmit, or any value */

#define MUST(asked) must(#asked, asked)
static void must(const char *asked, uint32_t status) {
  if (status != NOB_OK) fprintf(stderr, "%s: status %u\n", asked, (unsigned)status);
  if (status != NOB_OK) exit(1);
}

static bool turn(NobHandle *space, NobHandle *other) { /* what there is to do, each once: whether there was anything */
  static const uint8_t counter[11] = {4, 0, 1, 0, 0, 0, 0, 0, 0, 0, 1}; /* a reference to object 1 of space 1 */
  static uint8_t total[9] = {1, 0, 0, 0, 0, 0, 0, 0, 0};                /* a whole number, its highest byte first */
  NobWork work;
  nob_work(space, &work);
  if (work.act) MUST(nob_act(space, nob_id(other), &told));
  if (work.settle) MUST(nob_settle(space, &told));
  if (work.clean) MUST(nob_clean(space, &told));
  if (work.claim) {
    MUST(nob_claim(space, &told));
    const bool is_agent = told.index == 0; /* which gives the counter to whoever asks; else the counter is called */
    total[8] += is_agent ? 0 : 1;
    MUST(nob_finish(space, told.number, NOB_ANSWER, is_agent ? counter : total, is_agent ? 11 : 9, &told));
  }
  if (!work.send) return work.act || work.settle || work.clean || work.claim;
  MUST(nob_transmit(space, nob_id(other), &told)); /* between processes a connection carries its frames (caller.py) */
  MUST(nob_push(other, nob_id(space), room, nob_answer(space, room, sizeof room), &told));
  for (uint64_t frames = told.number; frames > 0; frames--) MUST(nob_next(other, &told));
  return true;
}

static unsigned call(uint64_t index) { /* the last byte of the answer: a total, or the index of a reference */
  MUST(nob_call(&caller, 1, index, 0, &(uint8_t){0}, 1, &told)); /* with unit, whose pickle is a byte 0 */
  while (turn(&owner, &caller) | turn(&caller, &owner)) continue;
  MUST(nob_take_reply(&caller, nob_next_reply(&caller), &told));
  must("no answer", told.kind == NOB_REPLIED && told.number == NOB_ANSWER ? NOB_OK : NOB_NO_VALUE);
  MUST(nob_value(&caller));
  return room[nob_answer(&caller, room, sizeof room) - 1];
}

int main(void) {
  if (nob_version() != NOB_VERSION) return 1;
  MUST(nob_new(&owner, 1, 2, 8, 16));
  MUST(nob_new(&caller, 2, 2, 8, 16));
  MUST(nob_export(&owner, &told));
  unsigned counter = call(0); /* from here on the caller holds it, */
  MUST(nob_release(&owner, 1, counter, &told)); /* and nobody else does */
  for (int i = 0; i < 3; i++) printf("the counter says %u\n", call(counter));
  printf("while the caller holds it: status %u\n", (unsigned)nob_withdraw(&owner, counter, &told));
  MUST(nob_release(&caller, 1, counter, &told));
  while (turn(&owner, &caller) | turn(&caller, &owner)) continue;
  printf("once it is given back: status %u\n", (unsigned)nob_withdraw(&owner, counter, &told));
  nob_end(&owner);
  nob_end(&caller);
}
