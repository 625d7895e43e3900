/* Two users come to a conference, and the first asks for its floor. A bridge has sockets where this prints. */
#include <stdio.h>
#include "floor.h"

static const char TEXT[] = "[[conference]]\nid = 1\n[[conference.user]]\nid = 10\n[[conference.user]]\nid = 11\n"
                           "[[conference.floor]]\nid = 1\n";
static const uint8_t ASKS[] = { 0x20, 1, 0, 1, 0, 0, 0, 1, 0, 1, 0, 10, 4, 4, 0, 1 };    /* FloorRequest, floor 1 */
static const uint8_t WATCHES[] = { 0x20, 7, 0, 1, 0, 0, 0, 1, 0, 1, 0, 11, 4, 4, 0, 1 }; /* FloorQuery, floor 1 */

static void send_to(floor_hub *hub, uint64_t connection)
{
	uint8_t bytes[4096];
	struct floor_taken taken = floor_take(hub, connection, bytes, sizeof bytes);

	if (taken.result != FLOOR_OK)
		return;
	printf("%u is sent %u messages of %zu bytes\n", (unsigned)connection, taken.parcels, taken.len);
	floor_took(hub, connection, taken.parcels);
}

static void receive(floor_hub *hub, uint64_t connection, const uint8_t *bytes, size_t len)
{
	uint64_t told[64];

	floor_piece(hub, connection, bytes, len);
	while (floor_serve(hub, connection, 100).result == FLOOR_OK)
		for (size_t i = 0, count = floor_told(hub, told, 64).count; i < count; i++)
			send_to(hub, told[i]);
	send_to(hub, connection);
}

int main(void)
{
	floor_hub *hub = floor_hub_new();
	floor_open(hub, TEXT, sizeof TEXT - 1);
	uint64_t ann = floor_attach(hub, 1, 10).connection, bob = floor_attach(hub, 1, 11).connection;
	receive(hub, bob, WATCHES, sizeof WATCHES);
	receive(hub, ann, ASKS, sizeof ASKS);
	floor_hub_free(hub);
}
