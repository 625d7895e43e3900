/* floor.h: conferences with floor control (BFCP, RFC 8855), without input or output.
 *
 * A hub holds conferences. The caller has the connections: it says which is which user's, hands in the bytes
 * that come, cut anywhere, and takes whole messages to send. Bytes in: floor_piece, then floor_serve; and
 * floor_say for a user who has no connection. Bytes out, after each floor_attach, floor_serve, floor_took,
 * floor_leave, floor_close, floor_revoke, floor_user, floor_floor, floor_chair and floor_say: floor_take for
 * whom floor_told names, then floor_took once they are sent.
 *
 * Link libfloor.a or libfloor.so: `pkg-config --cflags --libs floor`. It wants malloc, realloc, free, memcpy,
 * memmove and memset of the C library, and nothing else. It keeps nothing outside the hub, does no input or
 * output, starts no thread, takes no lock, waits for nothing, and never ends the process: want of memory is
 * an answer.
 *
 * Each call is proved to be that call of the hub, of the hub that lies at the pointer, and so that each
 * message tells what RFC 8855 and the conference's history make of it. What no proof sees is what C has to
 * keep:
 *
 *   - `hub` was given to floor_hub_init and not to floor_hub_drop since, and didn't move in memory. A hub
 *     that is used after floor_hub_drop is C's fault alone; nothing notices it.
 *   - A hub is in one call at a time: one thread's, or behind a lock of the caller's. Any thread may have it
 *     next. Hubs have nothing in common.
 *   - A pointer to bytes isn't null, also where the length is 0. What a call reads nobody changes meanwhile;
 *     what it writes nobody reads meanwhile; and neither lies within the hub. A length is below 2^63. A call
 *     keeps no pointer: all memory that is passed is the caller's again once it returns.
 *   - A bool is 0 or 1.
 *   - No call is made from a signal handler, nor in the forked child of a process with threads.
 *
 * A refused call changes nothing, but that FLOOR_ROOM_MEMORY breaks off the one conference: from then on its
 * messages are refused by FLOOR_BROKEN, and its connections can but leave.
 */
#ifndef FLOOR_H
#define FLOOR_H

#include <stdbool.h>
#include <stddef.h>
#include <stdint.h>
#include <stdlib.h>

#ifdef __cplusplus
extern "C" {
#endif

/* What a call answers. No two refusals have one number. */
enum floor_result {
	FLOOR_OK = 0,                     /* it was done */
	FLOOR_NOTHING = 1,                /* there is nothing more to serve, to take or to read */
	FLOOR_TOO_SHORT = 2,              /* the room is too short, and it is told how much is wanted */
	FLOOR_NOT_UTF8 = 3,               /* a text isn't UTF-8 */

	FLOOR_USED = 10,                  /* a conference has the number, or had it */
	FLOOR_NO_CONFERENCE = 11,         /* no conference has the number */
	FLOOR_NO_CONNECTION = 12,         /* no live connection has the number */
	FLOOR_MEMORY = 13,                /* malloc gave nothing, and nothing has changed */
	FLOOR_JOURNAL_FULL = 14,          /* the conference has 2,000,000 events */
	FLOOR_FORGOTTEN = 15,             /* the conference was forgotten */
	FLOOR_RUNNING = 16,               /* it hasn't ended, is broken off, or a connection of it is live */
	FLOOR_BAD_MESSAGE = 17,           /* what is said for a user isn't exactly one message */

	FLOOR_BROKEN = 20,                /* want of memory has broken the conference off */
	FLOOR_ENDED = 21,                 /* the conference has ended */
	FLOOR_NO_MEMBER = 22,
	FLOOR_NO_USER = 23,               /* no user of the conference has the id */
	FLOOR_FULL = 24,                  /* 64 connections of the conference are live */
	FLOOR_NO_REQUEST = 25,            /* no ongoing floor request has the number */
	FLOOR_CUT = 26,                   /* the connection came to be more than 1,024 messages behind */
	FLOOR_BAD_COUNT = 27,             /* none, or more than were taken and not acknowledged */
	FLOOR_OUT_OF_RANGE = 28,          /* a number or a text is beyond its range, or there are too many */
	FLOOR_DOUBLE_USER = 29,
	FLOOR_DOUBLE_FLOOR = 30,
	FLOOR_NO_FLOOR = 31,              /* no floor of the conference has the id */
	FLOOR_UNKNOWN_CHAIR = 32,         /* the chair is no user of the conference */
	FLOOR_ROOM_MEMORY = 33,           /* malloc gave nothing, and the conference is broken off */

	FLOOR_TEXT_SYNTAX = 40,           /* of the text of floor_open: it isn't TOML */
	FLOOR_TEXT_MISSING_KEY = 41,
	FLOOR_TEXT_WRONG_TYPE = 42,
	FLOOR_TEXT_OUT_OF_RANGE = 43,
	FLOOR_TEXT_DOUBLE_USER = 44,
	FLOOR_TEXT_DOUBLE_FLOOR = 45,
	FLOOR_TEXT_NO_FLOOR = 46,
	FLOOR_TEXT_UNKNOWN_CHAIR = 47,
	FLOOR_TEXT_DOUBLE_CONFERENCE = 48,
	FLOOR_TEXT_DOUBLE_PORT = 49
};

/* What becomes of a conference. */
enum floor_phase {
	FLOOR_PHASE_RUNNING = 0,
	FLOOR_PHASE_ENDED = 1,
	FLOOR_PHASE_BROKEN = 2
};

/* No message is longer: 12 bytes of header, and 65,535 units of 4 bytes. */
#define FLOOR_MESSAGE_MAX 262152

typedef struct floor_hub floor_hub;

/* `result` is an enum floor_result. */
struct floor_opened { uint32_t result; size_t opened; };
struct floor_text { uint32_t result; size_t len; };
struct floor_attached { uint32_t result; uint64_t connection; };
struct floor_served { uint32_t result; uint32_t served; };
struct floor_taken { uint32_t result; uint32_t parcels; size_t len; };
struct floor_said { uint32_t result; uint32_t place; size_t len; };
struct floor_named { uint32_t result; size_t count; };
struct floor_lines { uint32_t result; size_t events; size_t len; };
struct floor_state {
	uint32_t result;
	uint32_t members;                 /* live connections */
	uint32_t ongoing;                 /* ongoing floor requests */
	uint32_t events;                  /* how many the journal has */
	uint32_t phase;                   /* an enum floor_phase */
};

/* Hubs. A hub lies in memory of the caller's: floor_hub_size() bytes, aligned to 16. floor_hub_init makes it,
 * with no conference, and takes no memory. floor_hub_drop gives back all that it took; the room itself is the
 * caller's again. */
size_t floor_hub_size(void);
void floor_hub_init(floor_hub *hub);
void floor_hub_drop(floor_hub *hub);

/* Opens the conferences of a text in TOML, in its order: `opened` of them. Where the text is refused none is
 * opened. Where the hub refuses one (FLOOR_USED, FLOOR_MEMORY), those before it are open, and it and those
 * behind it are not. */
struct floor_opened floor_open(floor_hub *hub, const char *text, size_t len);
/* Why a text is refused, with a line for a person that tells the place and what stands there. The line is
 * written with a zero behind it where `size` is more than its `len` bytes, else nothing of it is. Needs no
 * hub. */
struct floor_text floor_diagnose(const char *text, size_t len, char *line, size_t size);

/* A connection of a user of a conference; its number is over all conferences, and never given again. Refused
 * by FLOOR_NO_CONFERENCE, FLOOR_BROKEN, FLOOR_ENDED, FLOOR_JOURNAL_FULL, FLOOR_NO_USER, FLOOR_FULL and, with
 * the conference broken off and no connection made, by FLOOR_ROOM_MEMORY. */
struct floor_attached floor_attach(floor_hub *hub, uint32_t conference, uint16_t user);
/* Bytes that came from a connection. Nothing is served by it. Refused by FLOOR_NO_CONNECTION and
 * FLOOR_MEMORY. */
uint32_t floor_piece(floor_hub *hub, uint64_t connection, const uint8_t *bytes, size_t len);
/* Serves messages of a connection that are whole, `most` at most, and says how many it served. FLOOR_NOTHING:
 * no further one is whole. FLOOR_OK: `most` were served; or the last one told others something too, and then
 * look at them (floor_told) before you go on. Else the next message was refused, and stays with the
 * connection: by FLOOR_NO_CONNECTION, FLOOR_BROKEN, FLOOR_ENDED, FLOOR_JOURNAL_FULL, FLOOR_CUT; by
 * FLOOR_ROOM_MEMORY with the conference broken off. A server leaves such a connection. */
struct floor_served floor_serve(floor_hub *hub, uint64_t connection, uint32_t most);
/* Whom the last call of floor_attach, floor_serve, floor_took, floor_leave, floor_close, floor_revoke,
 * floor_user, floor_floor, floor_chair or floor_say concerned, ascending: the connections that have something
 * to take, those that it cut, and all of a conference that it closed or broke off. Of floor_serve: the
 * connection that was served, and these. FLOOR_TOO_SHORT: `count` is more than `size`, and nothing is written.
 * No conference has more than 64 connections, so that room for 64 is enough. */
struct floor_named floor_told(floor_hub *hub, uint64_t *connections, size_t size);
/* Takes messages to a connection, whole ones, as many as there is room for, one behind the other: `parcels`
 * of them, `len` bytes. FLOOR_NOTHING: none waits. FLOOR_TOO_SHORT: the first one has `len` bytes, more than
 * `size`, and none was taken. FLOOR_NO_CONNECTION. What is taken counts as on its way until floor_took. */
struct floor_taken floor_take(floor_hub *hub, uint64_t connection, uint8_t *bytes, size_t size);
/* So many of the messages that were taken are sent. A connection with more than 1,024 that are neither is
 * cut: it is told nothing more. Refused by FLOOR_NO_CONNECTION, FLOOR_BROKEN, FLOOR_ENDED,
 * FLOOR_JOURNAL_FULL, FLOOR_BAD_COUNT; by FLOOR_ROOM_MEMORY with the conference broken off. */
uint32_t floor_took(floor_hub *hub, uint64_t connection, uint32_t count);
/* Whether a connection is cut: once it is sent what waits, shut it down. False without such a connection. */
bool floor_is_cut(floor_hub *hub, uint64_t connection);
/* A connection is gone, whatever is answered. Refused by FLOOR_NO_CONNECTION, and with the conference broken
 * off by FLOOR_ROOM_MEMORY. */
uint32_t floor_leave(floor_hub *hub, uint64_t connection);

/* What an administrator does. Refused by FLOOR_NO_CONFERENCE, FLOOR_BROKEN, FLOOR_ENDED, FLOOR_JOURNAL_FULL,
 * then by what each names; by FLOOR_ROOM_MEMORY with the conference broken off.
 *
 * Ends a conference. */
uint32_t floor_close(floor_hub *hub, uint32_t conference);
/* Takes the floors of a floor request away, or denies it where it has none. FLOOR_NO_REQUEST. */
uint32_t floor_revoke(floor_hub *hub, uint32_t conference, uint16_t request);
/* Adds a user; texts are UTF-8, and an empty one counts as absent. FLOOR_NOT_UTF8 and FLOOR_MEMORY come
 * first; then FLOOR_OUT_OF_RANGE, FLOOR_DOUBLE_USER. */
uint32_t floor_user(floor_hub *hub, uint32_t conference, uint16_t user, bool proxy, const char *name,
                    size_t name_len, const char *uri, size_t uri_len);
/* Adds a floor, for so many floor requests at a time. FLOOR_OUT_OF_RANGE, FLOOR_DOUBLE_FLOOR,
 * FLOOR_UNKNOWN_CHAIR. */
uint32_t floor_floor(floor_hub *hub, uint32_t conference, uint16_t floor, uint16_t room, bool has_chair,
                     uint16_t chair);
/* Gives a floor a chair, or none. FLOOR_NO_FLOOR, FLOOR_UNKNOWN_CHAIR. */
uint32_t floor_chair(floor_hub *hub, uint32_t conference, uint16_t floor, bool has_chair, uint16_t chair);
/* Says a message for a user, who needs no connection: a floor request, a release or a chair's action, as if a
 * connection of the user had sent it. Gives its place in the journal, and writes what answers it, which no
 * connection is told: its `len` bytes, 0 where nothing does. Where `size` is less nothing is written, and it
 * is said all the same: FLOOR_MESSAGE_MAX is always enough. FLOOR_NO_USER, FLOOR_BAD_MESSAGE. */
struct floor_said floor_say(floor_hub *hub, uint32_t conference, uint16_t user, const uint8_t *message,
                            size_t message_len, uint8_t *answer, size_t size);
/* Gives the memory of a conference back that has ended and of which no connection is live. Refused by
 * FLOOR_FORGOTTEN, FLOOR_NO_CONFERENCE, FLOOR_RUNNING and FLOOR_MEMORY. */
uint32_t floor_forget(floor_hub *hub, uint32_t conference);

/* How a conference stands. Takes no memory. Refused by FLOOR_NO_CONFERENCE and FLOOR_FORGOTTEN. */
struct floor_state floor_status(floor_hub *hub, uint32_t conference);
/* Lines of a conference's journal, behind those of the first `done` events: whole ones, as many as there is
 * room for, of so many `events`. FLOOR_NOTHING: there are no more. FLOOR_TOO_SHORT: the first one has `len`
 * bytes, more than `size`. FLOOR_MEMORY: nothing is said of what was written. FLOOR_NO_CONFERENCE and
 * FLOOR_FORGOTTEN. A journal only grows, so that one can be written out as it comes. */
struct floor_lines floor_journal(floor_hub *hub, uint32_t conference, size_t done, char *lines, size_t size);

/* The name of a result, as `NoConference`, with a zero behind it where `size` is more than its length, which
 * is returned: 0 of a number that is no result. 17 bytes are enough. */
size_t floor_name(uint32_t result, char *name, size_t size);
/* The version, and the logic that the library is proved with, in the same way. */
size_t floor_version(char *version, size_t size);

/* A hub in memory of malloc; null where there is none. */
static inline floor_hub *floor_hub_new(void)
{
	floor_hub *hub = (floor_hub *)malloc(floor_hub_size());

	if (hub)
		floor_hub_init(hub);
	return hub;
}

static inline void floor_hub_free(floor_hub *hub)
{
	if (hub)
		floor_hub_drop(hub);
	free(hub);
}

#ifdef __cplusplus
}
#endif
#endif
