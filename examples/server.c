/* A floor control server in one thread, by epoll and floor.h: server FILE, a TOML text as floord's, in which `id` and
 * `port` stand in lines of their own. Each user with a port listens there, on 127.0.0.1: let nobody but a proxy that
 * knows its users come there. Prints `ready`; a line `stop`, or the end of its input, ends it. */
#define _GNU_SOURCE
#include <arpa/inet.h>
#include <errno.h>
#include <netinet/tcp.h>
#include <signal.h>
#include <stdio.h>
#include <string.h>
#include <sys/epoll.h>
#include <unistd.h>
#include "floor.h"

#define MAX_UNSENT (1u << 20) /* who lets more bytes than this wait is shut down */
#define MAX_SERVED 64         /* so many messages of one connection are served before another's */
#define PLACES 4096

/* A listening port, or a connection. */
struct peer {
	int fd;
	bool listens, waits, dead;   /* waits: for its socket to take more */
	uint32_t conference;
	uint16_t user;
	uint64_t connection;
	uint8_t *bytes;              /* what its socket has yet to take, from `at` on */
	size_t at, len, room;
	struct peer *next;           /* at its place, or to be freed */
	struct peer *ends;           /* the next that is to be shut down */
};

static floor_hub *hub;
static struct peer *places[PLACES], *listeners, *gone, *ending;
static int events;

static void watch(struct peer *peer, int how, uint32_t what)
{
	struct epoll_event event = { .events = what, .data.ptr = peer };

	epoll_ctl(events, how, peer->fd, &event);
}

static struct peer *find(uint64_t connection)
{
	struct peer *peer = places[connection % PLACES];

	while (peer && peer->connection != connection)
		peer = peer->next;
	return peer;
}

/* Is to be shut down, once the turn is over. */
static void end(struct peer *peer)
{
	if (peer->dead)
		return;
	peer->dead = true;
	peer->ends = ending;
	ending = peer;
}

/* Makes room for so many bytes more. */
static bool reserve(struct peer *peer, size_t more)
{
	size_t room = peer->room ? peer->room : 4096;
	uint8_t *bytes;

	while (room < peer->len + more)
		room *= 2;
	if (room == peer->room)
		return true;
	if (room > MAX_UNSENT + FLOOR_MESSAGE_MAX || !(bytes = realloc(peer->bytes, room)))
		return false;
	peer->bytes = bytes;
	peer->room = room;
	return true;
}

/* Takes all that waits for a connection, and acknowledges it. */
static void take(struct peer *peer)
{
	struct floor_taken taken = { FLOOR_OK, 0, 4096 };

	for (;;) {
		if (!reserve(peer, taken.result == FLOOR_TOO_SHORT ? taken.len : 4096)) {
			end(peer);
			return;
		}
		taken = floor_take(hub, peer->connection, peer->bytes + peer->len, peer->room - peer->len);
		if (taken.result == FLOOR_OK) {
			peer->len += taken.len;
			floor_took(hub, peer->connection, taken.parcels);
		} else if (taken.result != FLOOR_TOO_SHORT) {
			return;
		}
	}
}

/* Sends what the socket takes. */
static void flush(struct peer *peer)
{
	while (peer->at < peer->len) {
		ssize_t sent = send(peer->fd, peer->bytes + peer->at, peer->len - peer->at, MSG_NOSIGNAL | MSG_DONTWAIT);

		if (sent < 0 && errno == EINTR)
			continue;
		if (sent < 0 && errno == EAGAIN)
			break;
		if (sent <= 0) {
			end(peer);
			return;
		}
		peer->at += (size_t)sent;
	}
	if (peer->at == peer->len)
		peer->at = peer->len = 0;
	if (peer->waits != (peer->len > 0)) {
		peer->waits = peer->len > 0;
		watch(peer, EPOLL_CTL_MOD, peer->waits ? EPOLLIN | EPOLLOUT : EPOLLIN);
	}
}

static void look_at(struct peer *peer)
{
	if (!peer || peer->dead)
		return;
	take(peer);
	flush(peer);
	if (floor_is_cut(hub, peer->connection))
		end(peer);
}

/* Looks at those that the last call concerned. */
static void tell(void)
{
	uint64_t told[64];
	size_t count = floor_told(hub, told, 64).count;

	for (size_t place = 0; place < count; place++)
		look_at(find(told[place]));
}

static void leave(struct peer *peer)
{
	struct peer **at = &places[peer->connection % PLACES];

	while (*at != peer)
		at = &(*at)->next;
	*at = peer->next;
	floor_leave(hub, peer->connection);
	close(peer->fd);
	peer->fd = -1;
	peer->next = gone;
	gone = peer;
	tell();
}

static void come(struct peer *listener)
{
	int fd = accept4(listener->fd, NULL, NULL, SOCK_NONBLOCK), one = 1;
	struct peer *peer = fd < 0 ? NULL : calloc(1, sizeof *peer);
	struct floor_attached attached = { FLOOR_MEMORY, 0 };

	if (peer)
		attached = floor_attach(hub, listener->conference, listener->user);
	if (attached.result != FLOOR_OK) {
		free(peer);
		close(fd);
		return;
	}
	setsockopt(fd, IPPROTO_TCP, TCP_NODELAY, &one, sizeof one);
	peer->fd = fd;
	peer->connection = attached.connection;
	peer->next = places[peer->connection % PLACES];
	places[peer->connection % PLACES] = peer;
	watch(peer, EPOLL_CTL_ADD, EPOLLIN);
	tell();
}

static void receive(struct peer *peer)
{
	static uint8_t bytes[65536];
	ssize_t len = recv(peer->fd, bytes, sizeof bytes, MSG_DONTWAIT);
	struct floor_served served = { FLOOR_OK, 0 };

	if (len < 0 && (errno == EAGAIN || errno == EINTR))
		return;
	if (len <= 0 || floor_piece(hub, peer->connection, bytes, (size_t)len) != FLOOR_OK) {
		end(peer);
		return;
	}
	while (served.result == FLOOR_OK) {
		served = floor_serve(hub, peer->connection, MAX_SERVED);
		tell();
	}
	look_at(peer);
	if (served.result != FLOOR_NOTHING)
		end(peer);
}

static void listen_at(uint32_t conference, uint16_t user, uint16_t port)
{
	struct sockaddr_in address = { .sin_family = AF_INET, .sin_port = htons(port) };
	struct peer *peer = calloc(1, sizeof *peer);
	int one = 1;

	if (!peer)
		exit(1);
	*peer = (struct peer){ .listens = true, .conference = conference, .user = user, .next = listeners };
	listeners = peer;
	peer->fd = socket(AF_INET, SOCK_STREAM | SOCK_NONBLOCK, 0);
	address.sin_addr.s_addr = htonl(INADDR_LOOPBACK);
	setsockopt(peer->fd, SOL_SOCKET, SO_REUSEADDR, &one, sizeof one);
	if (bind(peer->fd, (struct sockaddr *)&address, sizeof address) || listen(peer->fd, 511)) {
		perror("server: listen");
		exit(1);
	}
	watch(peer, EPOLL_CTL_ADD, EPOLLIN);
}

/* Opens the conferences of a text, and listens for their users. */
static void open_all(char *text)
{
	struct floor_opened opened = floor_open(hub, text, strlen(text));
	unsigned conference = 0, id = 0, port, is_user = 0;

	if (opened.result != FLOOR_OK) {
		char line[256] = "", name[32];

		floor_diagnose(text, strlen(text), line, sizeof line);
		floor_name(opened.result, name, sizeof name);
		fprintf(stderr, "server: %s: %s\n", name, line);
		exit(1);
	}
	for (char *line = strtok(text, "\n"); line; line = strtok(NULL, "\n")) {
		if (line[0] == '[')
			is_user = strncmp(line, "[[conference.user]]", 19) == 0 ? 1 : strncmp(line, "[[conference]]", 14) ? 0 : 2;
		if (sscanf(line, "id = %u", &id) == 1 && is_user == 2)
			conference = id;
		if (sscanf(line, "port = %u", &port) == 1 && is_user == 1)
			listen_at(conference, (uint16_t)id, (uint16_t)port);
	}
}

static void bury(struct peer **list)
{
	while (*list) {
		struct peer *peer = *list;

		*list = peer->next;
		if (peer->fd >= 0)
			close(peer->fd);
		free(peer->bytes);
		free(peer);
	}
}

static void turn(struct epoll_event *event)
{
	struct peer *peer = event->data.ptr;

	if (peer->listens) {
		come(peer);
	} else if (peer->fd >= 0) {
		if (event->events & EPOLLOUT)
			flush(peer);
		if (event->events & ~(uint32_t)EPOLLOUT && !peer->dead)
			receive(peer);
	}
	/* Who is to be shut down leaves, which may concern others. */
	while (ending) {
		struct peer *one = ending;

		ending = one->ends;
		leave(one);
	}
}

int main(int argc, char **argv)
{
	static char text[1 << 20];
	static struct epoll_event happened[512];
	struct peer input = { .fd = 0 };
	FILE *file = argc == 2 ? fopen(argv[1], "r") : NULL;

	if (!file || !(hub = floor_hub_new())) {
		fputs("usage: server FILE\n", stderr);
		return 2;
	}
	text[fread(text, 1, sizeof text - 1, file)] = 0;
	fclose(file);
	signal(SIGPIPE, SIG_IGN);
	events = epoll_create1(0);
	open_all(text);
	watch(&input, EPOLL_CTL_ADD, EPOLLIN);
	puts("ready");
	fflush(stdout);
	for (bool ends = false; !ends;) {
		int count = epoll_wait(events, happened, 512, -1);

		for (int place = 0; place < count; place++)
			if (happened[place].data.ptr == &input) {
				char line[64];
				ssize_t len = read(0, line, sizeof line);

				ends = len <= 0 || strncmp(line, "stop", 4) == 0;
			} else {
				turn(&happened[place]);
			}
		bury(&gone);
	}
	for (size_t place = 0; place < PLACES; place++)
		bury(&places[place]);
	bury(&listeners);
	floor_hub_free(hub);
	close(events);
	puts("ok stopped");
}
