// floor.hpp: a hub of floor.h, owned. Each call is that of floor.h, which says what it does; a refusal is a
// floor_control::refused with its number and its name. C++17.
#ifndef FLOOR_HPP
#define FLOOR_HPP

#include "floor.h"

#include <new>
#include <stdexcept>
#include <string>
#include <string_view>
#include <utility>
#include <vector>

namespace floor_control {

// The name of a result, as `NoConference`.
inline std::string name_of(std::uint32_t result)
{
	char name[32];

	return std::string(name, floor_name(result, name, sizeof name));
}

// A call that was refused; for floor_open with the line that tells the place.
class refused : public std::runtime_error {
public:
	explicit refused(std::uint32_t number, const std::string &place = "")
	    : std::runtime_error(place.empty() ? name_of(number) : name_of(number) + ": " + place), result(number)
	{
	}

	const std::uint32_t result;
};

// Conferences. It can be moved, and not copied; a hub that was moved from may only be destroyed or given
// another. One call at a time, as with any container.
class hub {
public:
	hub() : held(floor_hub_new())
	{
		if (!held)
			throw std::bad_alloc();
	}
	~hub() { floor_hub_free(held); }
	hub(hub &&other) noexcept : held(std::exchange(other.held, nullptr)) {}
	hub &operator=(hub &&other) noexcept
	{
		std::swap(held, other.held);
		return *this;
	}
	hub(const hub &) = delete;
	hub &operator=(const hub &) = delete;

	// Opens the conferences of a text in TOML. Where one is refused those before it are open.
	void open(std::string_view text)
	{
		const char *bytes = text.empty() ? "" : text.data();
		const floor_opened opened = floor_open(held, bytes, text.size());

		if (opened.result == FLOOR_OK)
			return;
		std::string line(256, '\0');
		floor_text place = floor_diagnose(bytes, text.size(), &line[0], line.size());
		if (place.len >= line.size()) {
			line.resize(place.len + 1);
			place = floor_diagnose(bytes, text.size(), &line[0], line.size());
		}
		line.resize(place.len < line.size() ? place.len : 0);
		throw refused(opened.result, line);
	}

	std::uint64_t attach(std::uint32_t conference, std::uint16_t user)
	{
		const floor_attached attached = floor_attach(held, conference, user);

		check(attached.result);
		return attached.connection;
	}

	void piece(std::uint64_t connection, const void *bytes, std::size_t len)
	{
		check(floor_piece(held, connection, static_cast<const std::uint8_t *>(bytes ? bytes : ""), len));
	}

	// Serves messages, and says whether more may wait: then look at those that are told first.
	bool serve(std::uint64_t connection, std::uint32_t most = UINT32_MAX)
	{
		const floor_served served = floor_serve(held, connection, most);

		if (served.result != FLOOR_NOTHING)
			check(served.result);
		return served.result == FLOOR_OK;
	}

	// Whom the last call concerned.
	std::vector<std::uint64_t> told()
	{
		std::vector<std::uint64_t> connections(64);
		const floor_named named = floor_told(held, connections.data(), connections.size());

		check(named.result);
		connections.resize(named.count);
		return connections;
	}

	// Puts what waits for a connection behind the bytes of a buffer, and says how many messages that are: they
	// are to be acknowledged by took once they are sent.
	std::uint32_t take(std::uint64_t connection, std::vector<std::uint8_t> &bytes)
	{
		std::uint32_t parcels = 0;
		std::size_t room = 4096;

		for (;;) {
			const std::size_t before = bytes.size();
			bytes.resize(before + room);
			const floor_taken taken = floor_take(held, connection, bytes.data() + before, room);
			bytes.resize(before + (taken.result == FLOOR_OK ? taken.len : 0));
			if (taken.result == FLOOR_NOTHING)
				return parcels;
			if (taken.result == FLOOR_TOO_SHORT) {
				room = taken.len;
				continue;
			}
			check(taken.result);
			parcels += taken.parcels;
		}
	}

	void took(std::uint64_t connection, std::uint32_t count) { check(floor_took(held, connection, count)); }
	bool is_cut(std::uint64_t connection) { return floor_is_cut(held, connection); }
	void leave(std::uint64_t connection) { check(floor_leave(held, connection)); }
	void close(std::uint32_t conference) { check(floor_close(held, conference)); }
	void revoke(std::uint32_t conference, std::uint16_t request) { check(floor_revoke(held, conference, request)); }

	void add_user(std::uint32_t conference, std::uint16_t user, bool proxy, std::string_view name = "",
	              std::string_view uri = "")
	{
		check(floor_user(held, conference, user, proxy, name.empty() ? "" : name.data(), name.size(),
		                 uri.empty() ? "" : uri.data(), uri.size()));
	}

	void add_floor(std::uint32_t conference, std::uint16_t floor, std::uint16_t room)
	{
		check(floor_floor(held, conference, floor, room, false, 0));
	}
	void add_floor(std::uint32_t conference, std::uint16_t floor, std::uint16_t room, std::uint16_t chair)
	{
		check(floor_floor(held, conference, floor, room, true, chair));
	}
	void set_chair(std::uint32_t conference, std::uint16_t floor, std::uint16_t chair)
	{
		check(floor_chair(held, conference, floor, true, chair));
	}
	void remove_chair(std::uint32_t conference, std::uint16_t floor)
	{
		check(floor_chair(held, conference, floor, false, 0));
	}
	// Says a message for a user, who needs no connection, puts what answers it behind the bytes of a buffer, and
	// gives its place in the journal.
	std::uint32_t say(std::uint32_t conference, std::uint16_t user, const void *message, std::size_t len,
	                  std::vector<std::uint8_t> &answer)
	{
		const std::size_t before = answer.size();
		answer.resize(before + FLOOR_MESSAGE_MAX);
		const floor_said said = floor_say(held, conference, user, static_cast<const std::uint8_t *>(message ? message : ""),
		                                  len, answer.data() + before, FLOOR_MESSAGE_MAX);
		answer.resize(before + (said.result == FLOOR_OK ? said.len : 0));
		check(said.result);
		return said.place;
	}
	void forget(std::uint32_t conference) { check(floor_forget(held, conference)); }

	floor_state status(std::uint32_t conference)
	{
		const floor_state state = floor_status(held, conference);

		check(state.result);
		return state;
	}

	// Puts the journal's lines behind the first `done` events behind a text, and says how many events it has.
	std::size_t journal(std::uint32_t conference, std::size_t done, std::string &text)
	{
		std::size_t room = 65536;

		for (;;) {
			const std::size_t before = text.size();
			text.resize(before + room);
			const floor_lines lines = floor_journal(held, conference, done, &text[before], room);
			text.resize(before + (lines.result == FLOOR_OK ? lines.len : 0));
			if (lines.result == FLOOR_NOTHING)
				return done;
			if (lines.result == FLOOR_TOO_SHORT) {
				room = lines.len;
				continue;
			}
			check(lines.result);
			done += lines.events;
		}
	}

private:
	static void check(std::uint32_t result)
	{
		if (result != FLOOR_OK)
			throw refused(result);
	}

	floor_hub *held;
};

} // namespace floor_control
#endif
