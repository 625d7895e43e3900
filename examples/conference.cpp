// Two users come to a conference, and the first asks for its floor. A bridge has sockets where this prints.
#include <iostream>
#include "floor.hpp"

using Bytes = std::vector<std::uint8_t>;
const char TEXT[] = "[[conference]]\nid = 1\n[[conference.user]]\nid = 10\n[[conference.user]]\nid = 11\n"
                    "[[conference.floor]]\nid = 1\n";
const Bytes ASKS{0x20, 1, 0, 1, 0, 0, 0, 1, 0, 1, 0, 10, 4, 4, 0, 1};    // FloorRequest, floor 1
const Bytes WATCHES{0x20, 7, 0, 1, 0, 0, 0, 1, 0, 1, 0, 11, 4, 4, 0, 1}; // FloorQuery, floor 1

static void send_to(floor_control::hub &hub, std::uint64_t connection)
{
	Bytes bytes;
	const std::uint32_t parcels = hub.take(connection, bytes);

	if (parcels == 0)
		return;
	std::cout << connection << " is sent " << parcels << " messages of " << bytes.size() << " bytes\n";
	hub.took(connection, parcels);
}

static void receive(floor_control::hub &hub, std::uint64_t connection, const Bytes &bytes)
{
	hub.piece(connection, bytes.data(), bytes.size());
	while (hub.serve(connection))
		for (std::uint64_t told : hub.told())
			send_to(hub, told);
	send_to(hub, connection);
}

int main()
{
	floor_control::hub hub;

	hub.open(TEXT);
	const std::uint64_t ann = hub.attach(1, 10), bob = hub.attach(1, 11);
	receive(hub, bob, WATCHES);
	receive(hub, ann, ASKS);
}
