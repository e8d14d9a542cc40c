/* A space of Network Objects behind a handle, for programs in C and in whatever calls C.
 *
 * It declares the functions of the static library nob_host. What each one answers, in every case,
 * stands in crates/nob_host/README.md; what a space is asked, and when, in docs/SPACE.md; the bytes of
 * pickles and frames in docs/FORMATS.md. hosts/c/README.md says what to link with.
 *
 * What a caller owes, and nothing checks:
 * - Where nob_version isn't NOB_VERSION, this header isn't the library's: nothing else of it is called.
 * - A handle begins as NOB_EMPTY, and keeps nothing; so it does after nob_end. Each function says so of it:
 *   NOB_KEEPS_NONE, or 0, false or nothing. A handle is never copied: a copy of one that was ended is undefined, and
 *   nothing tells it from one that keeps a space. So are a handle's place, and one to write to, that are NULL.
 * - What nob_begin_at begins behind covers all that the life before it gave, heard and used (docs/LIVES.md).
 * - One call at a time for each handle, all on the thread that made it.
 * - A pointer with a length is one slice that nothing else writes during the call. It isn't NULL, also
 *   where the length is 0. What is written to (told, work, tally, out) is apart from all else.
 */
#ifndef MASTTOMATO_H
#define MASTTOMATO_H

#include <stdbool.h>
#include <stddef.h>
#include <stdint.h>

#ifdef __cplusplus
extern "C" {
#endif

/* The place of a space. */
typedef struct NobHandle {
  void *at;
} NobHandle;

#define NOB_EMPTY {NULL}

/* What came of what was asked: which fields count depends on the kind, and the others are 0. */
typedef struct NobTold {
  uint32_t kind;   /* NOB_EXPORTED and so on; 0 with any status but NOB_OK */
  uint16_t space;  /* an owner, or a peer */
  uint16_t method; /* of a job */
  uint64_t number; /* of a call, a job, an item, a session; a reply's status; a reason; a count */
  uint64_t index;  /* of an object */
  uint64_t call;   /* the number of a job's call at its client */
} NobTold;

/* What a space could do next. */
typedef struct NobWork {
  uint32_t act;   /* bit p - 1: there is an item from space p to act on */
  uint32_t send;  /* bit p - 1: a Transmit to space p would give a frame */
  bool settle;    /* there is something to settle, */
  bool clean;     /* to give up, */
  bool claim;     /* to claim, */
  bool withdraw;  /* to withdraw, */
  uint64_t index; /* the least index of such an object, or 0 */
} NobWork;

/* What went each way on the present session with a peer, and how it ended. */
typedef struct NobTally {
  uint32_t session; /* its number, from 1 on; 0 where there is no such peer */
  uint32_t closed;  /* 0 where this end is open, else the reason, 1 to 6 */
  uint64_t sent;    /* items that were handed to the peer */
  uint64_t acted;   /* items of the peer that were acted on here */
} NobTally;

/* How much a space has of what its memory goes to. */
typedef struct NobCounts {
  uint64_t live;       /* its objects: exported and not withdrawn */
  uint64_t surrogates; /* of others' objects, on sessions that are open here */
  uint64_t calls;      /* its own, whose reply, or the word that there will be none, wasn't taken */
  uint64_t waiting;    /* Calls and Replies that wait for their references */
  uint64_t ready;      /* jobs that weren't claimed */
  uint64_t running;    /* jobs that run */
  uint64_t replies;    /* that are ready and weren't taken */
} NobCounts;

/* How much of that is with one peer. */
typedef struct NobPeerCounts {
  uint64_t pinned;         /* items to it whose references are pinned here until it settles them */
  uint64_t unacknowledged; /* items to it that it hasn't acknowledged */
  uint64_t inbox;          /* items from it that were accepted and not acted on */
  uint64_t waiting;        /* Calls and Replies from it that wait for their references */
  uint64_t ready;          /* jobs of its Calls that weren't claimed */
  uint64_t surrogates;     /* of its objects, on a session that is open here */
} NobPeerCounts;

/* What stands at the front of the inbox from a peer: what a kind doesn't have is 0. */
typedef struct NobFront {
  uint32_t kind;       /* NOB_FRONT_NOTHING and so on */
  uint32_t references; /* in the value of a Call or a Reply, repeats and agents' included */
  uint32_t method;     /* of a Call; the status of a Reply */
  uint64_t item;       /* its number in the session */
  uint64_t number;     /* of the call, or of the item that a Settle names */
  uint64_t index;      /* of a Call's target, or of the object that another note names */
} NobFront;

/* The version of these functions. */
enum { NOB_VERSION = 4 };

/* Statuses. With any but NOB_OK nothing has changed at the space. 21 to 28 refuse a pickle, 41 to 52 a
 * frame or a stream, each by its first fault (P1 to P8, F1 to F12 of docs/FORMATS.md). */
enum {
  NOB_OK = 0,
  NOB_NO_PEER = 1,
  NOB_CLOSED_HERE = 2,
  NOB_NOT_LIVE = 3,
  NOB_NOT_HELD = 4,
  NOB_TOO_MANY_ITEMS = 5,
  NOB_NUMBERS_USED_UP = 6,
  NOB_NO_PICKLE = 7,
  NOB_NO_CALL = 8,
  NOB_NOT_READY = 9,
  NOB_NOTHING_TO_DO = 10,
  NOB_NO_JOB = 12,
  NOB_LIMIT = 13,
  NOB_NO_MEMORY = 14,
  NOB_STILL_OPEN = 15,
  NOB_STILL_HELD = 16,
  NOB_OUT_OF_RANGE = 60,
  NOB_FRAMES_WAIT = 61,
  NOB_NO_FRAME = 62,
  NOB_NO_VALUE = 63,
  NOB_OF_OTHERS = 64, /* a frame in the piece isn't from the peer to this space (nob_push) */
  NOB_KEEPS_NONE = 65, /* the handle keeps no space */
  NOB_KEEPS_ONE = 67, /* the handle keeps a space already (nob_new, nob_begin_at) */
  NOB_INDEXES_TOO_MANY = 71, /* 71 to 75: the space can't begin so (nob_begin_at) */
  NOB_CALLS_TOO_MANY = 72,
  NOB_JOBS_TOO_MANY = 73,
  NOB_SESSION_TOO_LOW = 74,
  NOB_TOO_MANY_BEFORE = 75,
  NOB_USED_BY_OWNER = 111,
  NOB_USED_IN_TRANSIT = 112,
  NOB_USED_BY_CLIENT = 113,
  NOB_USED_AS_AGENT = 114
};

/* Kinds of what is told. */
enum {
  NOB_EXPORTED = 1,
  NOB_DONE = 2,
  NOB_CALLED = 3,
  NOB_REPLIED = 4,
  NOB_ENDED = 5,
  NOB_JOB = 6,
  NOB_FINISHED = 7,
  NOB_DROPPED = 8,
  NOB_ACTED = 9,
  NOB_CLOSED = 10,
  NOB_SETTLED = 11,
  NOB_CLEANED = 12,
  NOB_WITHDRAWN = 13,
  NOB_FRAMES = 14,
  NOB_TOOK = 15,
  NOB_WAITING = 16,
  NOB_OPENED = 17
};

/* Outcomes of a job, for nob_finish; and, with NOB_LOST, the status of a reply. */
enum { NOB_ANSWER = 0, NOB_FAULT = 1, NOB_NO_METHOD = 2, NOB_LOST = 3 };

/* Kinds of what stands in front, by nob_front. The last one's bytes are no item's. */
enum {
  NOB_FRONT_NOTHING = 0,
  NOB_FRONT_CALL = 1,
  NOB_FRONT_REPLY = 2,
  NOB_FRONT_SETTLE = 3,
  NOB_FRONT_DIRTY = 4,
  NOB_FRONT_DIRTY_OK = 5,
  NOB_FRONT_DIRTY_NO = 6,
  NOB_FRONT_CLEAN = 7,
  NOB_FRONT_NO_ITEM = 8
};

/* What a Transmit would give, by nob_due. */
enum { NOB_NO_FRAMES = 0, NOB_ACK_ALONE = 1, NOB_GIVEN_BEFORE = 2, NOB_NEW_ITEMS = 3, NOB_CLOSE_OWED = 4 };

/* The version of the functions of the library, which is NOB_VERSION where this header is its own. */
uint32_t nob_version(void);

/* Makes space number `id` of `n` (up to 32), whose sessions have these limits (1 to 64, 1 to 255). */
uint32_t nob_new(NobHandle *handle, uint16_t id, uint16_t n, uint64_t window, uint64_t retry);
/* The same for a space that comes back under its number: behind so many indexes, calls and jobs, and with the session with
 * space p in the number at place p - 1 of sessions. There are n of these; that at the own place isn't read. */
uint32_t nob_begin_at(NobHandle *handle, uint16_t id, uint16_t n, uint64_t window, uint64_t retry, uint64_t indexes, uint64_t calls, uint64_t jobs, const uint32_t *sessions, size_t count);
/* Ends it, if there is one, and gives its memory back. */
void nob_end(NobHandle *handle);

/* What a space is asked (docs/SPACE.md). */
uint32_t nob_export(NobHandle *handle, NobTold *told);
uint32_t nob_dup(NobHandle *handle, uint16_t owner, uint64_t index, NobTold *told);
uint32_t nob_release(NobHandle *handle, uint16_t owner, uint64_t index, NobTold *told);
uint32_t nob_call(NobHandle *handle, uint16_t owner, uint64_t index, uint16_t method, const uint8_t *pickle, size_t length, NobTold *told);
uint32_t nob_take_reply(NobHandle *handle, uint64_t call, NobTold *told);
uint32_t nob_claim(NobHandle *handle, NobTold *told);
uint32_t nob_finish(NobHandle *handle, uint64_t job, uint32_t outcome, const uint8_t *pickle, size_t length, NobTold *told);
uint32_t nob_act(NobHandle *handle, uint16_t peer, NobTold *told);
uint32_t nob_settle(NobHandle *handle, NobTold *told);
uint32_t nob_clean(NobHandle *handle, NobTold *told);
uint32_t nob_withdraw(NobHandle *handle, uint64_t index, NobTold *told);
uint32_t nob_transmit(NobHandle *handle, uint16_t peer, NobTold *told);
uint32_t nob_arrive(NobHandle *handle, const uint8_t *frame, size_t length, NobTold *told);
uint32_t nob_tick(NobHandle *handle, uint16_t peer, NobTold *told);
uint32_t nob_close(NobHandle *handle, uint16_t peer, NobTold *told);
uint32_t nob_open(NobHandle *handle, uint16_t peer, NobTold *told);

/* A stream of frames from a peer, in pieces of any size: the frames that are whole wait, and nob_next
 * brings the first of them to the space. NOB_OF_OTHERS where one isn't from this peer to this space: none of the
 * piece's frames waits then, and the stream goes on behind it. nob_restart begins a new stream; what waits stays. */
uint32_t nob_push(NobHandle *handle, uint16_t peer, const uint8_t *piece, size_t length, NobTold *told);
uint32_t nob_next(NobHandle *handle, NobTold *told);
uint32_t nob_restart(NobHandle *handle, uint16_t peer);

/* The pickle of the value that the last reply or job brought becomes the answer. */
uint32_t nob_value(NobHandle *handle);
/* How many bytes the answer has: the frames of a Transmit, the frame of nob_next, or the pickle of
 * nob_value. As many of them as there is room for are copied. */
size_t nob_answer(NobHandle *handle, uint8_t *out, size_t room);

/* Looks, which change nothing and take no memory. */
uint16_t nob_id(NobHandle *handle);
uint16_t nob_n(NobHandle *handle);
bool nob_lists(NobHandle *handle, uint64_t index, uint16_t client);
bool nob_reply_ready(NobHandle *handle, uint64_t call);
void nob_work(NobHandle *handle, NobWork *work);
uint32_t nob_due(NobHandle *handle, uint16_t peer);
void nob_tally(NobHandle *handle, uint16_t peer, NobTally *tally);
uint64_t nob_live(NobHandle *handle);
void nob_counts(NobHandle *handle, NobCounts *counts);
/* All of it is 0 where the number is no peer's. */
void nob_peer_counts(NobHandle *handle, uint16_t peer, NobPeerCounts *counts);
/* What nob_act would act on. */
void nob_front(NobHandle *handle, uint16_t peer, NobFront *front);
/* The number of the call whose reply became ready first, of those that weren't taken; 0, which no call has, where none is ready. It
 * says nothing of the calls that a close ended: nob_take_reply says NOB_ENDED of each. */
uint64_t nob_next_reply(NobHandle *handle);

/* Whether a handle keeps a space, as far as that can be seen: it isn't NULL, and what it has isn't. nob_end leaves one
 * that doesn't; of a copy that was made before this says yes, wrongly. */
static inline bool nob_keeps(const NobHandle *handle) { return handle != NULL && handle->at != NULL; }

#ifdef __cplusplus
}
#endif

#endif
