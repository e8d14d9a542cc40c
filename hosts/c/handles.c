/* What is said of a handle that keeps no space, and of one that keeps one: a test, which tools/host-c runs. */
#include "masttomato.h"
#include <stdio.h>

static unsigned wrong = 0;

static void look(const char *what, bool holds) {
  if (holds) return;
  printf("not so: %s\n", what);
  wrong++;
}
#define LOOK(what) look(#what, what)

static void look_at_none(NobHandle *space) { /* a handle that keeps nothing: each function says so of it */
  NobTold told = {.kind = 1, .number = 1};
  NobWork work = {.act = 1, .claim = true};
  LOOK(!nob_keeps(space));
  LOOK(nob_export(space, &told) == NOB_KEEPS_NONE && told.kind == 0 && told.number == 0);
  LOOK(nob_withdraw(space, 1, &told) == NOB_KEEPS_NONE);
  LOOK(nob_value(space) == NOB_KEEPS_NONE);
  LOOK(nob_answer(space, (uint8_t *)&told, 0) == 0);
  LOOK(nob_id(space) == 0 && nob_live(space) == 0 && nob_next_reply(space) == 0);
  LOOK(!nob_lists(space, 1, 2) && !nob_reply_ready(space, 1));
  nob_work(space, &work);
  LOOK(work.act == 0 && !work.claim);
}

int main(void) {
  NobHandle space = NOB_EMPTY;
  NobTold told;
  LOOK(nob_version() == NOB_VERSION);
  LOOK(!nob_keeps(NULL));
  look_at_none(&space);
  LOOK(nob_new(&space, 0, 2, 8, 16) == NOB_OUT_OF_RANGE && !nob_keeps(&space));
  LOOK(nob_new(&space, 1, 2, 8, 16) == NOB_OK && nob_keeps(&space));
  LOOK(nob_export(&space, &told) == NOB_OK && told.kind == NOB_EXPORTED && told.index == 1);
  LOOK(nob_new(&space, 2, 2, 8, 16) == NOB_KEEPS_ONE && nob_id(&space) == 1 && nob_live(&space) == 1); /* it keeps what it kept */
  nob_end(&space);
  look_at_none(&space);
  nob_end(&space);
  LOOK(nob_new(&space, 2, 2, 8, 16) == NOB_OK && nob_id(&space) == 2 && nob_live(&space) == 0); /* it is as new */
  nob_end(&space);
  return wrong == 0 ? 0 : 1;
}
