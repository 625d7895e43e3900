/* libre's own BFCP connection over UDP, or over DTLS, led by lines on standard input: bench/libre.py runs it.
 *
 *     libre [--dtls PEM] PORT CONFERENCE USER
 *
 * It sends to 127.0.0.1:PORT by bfcp_request, and acknowledges what the server begins by bfcp_reply. Transaction IDs, the R
 * bit, what is sent again and the answers to copies are libre's. A line for each thing that happens:
 *
 *     port LOCAL                                       first
 *     answer N PRIMITIVE STATUS                        the Nth request's answer; the status of a floor request, else -
 *     failed N WHY                                     it has none
 *     told PRIMITIVE STATUS                            a request of the server's
 *
 * Lines: ask PRIMITIVE | request FLOOR | release REQUEST | query FLOOR. */
#include <errno.h>
#include <stdint.h>
#include <stdio.h>
#include <stdlib.h>
#include <string.h>
#include <unistd.h>
#include <re.h>

static struct bfcp_conn *connection;
static struct sa local, server;
static uint32_t conference;
static uint16_t user;
static uintptr_t count;

static const struct bfcp_attr *found(const struct list *attributes, enum bfcp_attrib type)
{
	for (struct le *le = list_head(attributes); le; le = le->next) {
		const struct bfcp_attr *attribute = le->data;
		const struct bfcp_attr *inner = attribute->type == type ? attribute : found(&attribute->attrl, type);

		if (inner)
			return inner;
	}
	return NULL;
}

static void show(const struct bfcp_msg *message)
{
	const struct bfcp_attr *status = found(&message->attrl, BFCP_REQUEST_STATUS);
	const struct bfcp_attr *request = found(&message->attrl, BFCP_FLOOR_REQ_INFO);

	printf("%d ", message->prim);
	if (request && status)
		printf("%u:%d\n", request->v.u16, status->v.reqstatus.status);
	else
		printf("-\n");
	fflush(stdout);
}

static void answered(int error, const struct bfcp_msg *message, void *arg)
{
	if (error || !message) {
		printf("failed %lu %s\n", (unsigned long)arg, strerror(error));
		fflush(stdout);
		return;
	}
	printf("answer %lu ", (unsigned long)arg);
	show(message);
}

static void told(const struct bfcp_msg *message, void *arg)
{
	enum bfcp_prim acknowledgement;

	(void)arg;
	/* libre hands a further copy of an answer on as a request. */
	if (message->r)
		return;
	printf("told ");
	show(message);
	switch (message->prim) {
	case BFCP_FLOOR_REQUEST_STATUS: acknowledgement = BFCP_FLOOR_REQ_STATUS_ACK; break;
	case BFCP_FLOOR_STATUS: acknowledgement = BFCP_FLOOR_STATUS_ACK; break;
	case BFCP_GOODBYE: acknowledgement = BFCP_GOODBYE_ACK; break;
	default: return;
	}
	(void)bfcp_reply(connection, message, acknowledgement, 0);
}

/* ---- DTLS, which libre's BFCP doesn't have: what the connection sends is caught and given to libre's DTLS, and what that
 * receives comes to the connection's socket from another one. */
static struct tls *tls;
static struct dtls_sock *dtls;
static struct tls_conn *secure;
static struct udp_helper *helper;
static struct udp_sock *beside;
static bool is_up;
static struct mbuf *held;

static void came_up(void *arg)
{
	(void)arg;
	is_up = true;
	printf("dtls up\n");
	if (held)
		(void)dtls_send(secure, held);
	held = mem_deref(held);
}

static void received(struct mbuf *datagram, void *arg)
{
	(void)arg;
	(void)udp_send(beside, &local, datagram);
}

static void closed(int error, void *arg)
{
	(void)arg;
	is_up = false;
	secure = mem_deref(secure);
	printf("dtls closed %s\n", strerror(error));
	fflush(stdout);
}

static bool catch(int *error, struct sa *to, struct mbuf *datagram, void *arg)
{
	(void)arg;
	/* DTLS's own records begin by 20 to 63. */
	if (mbuf_get_left(datagram) < 1 || mbuf_buf(datagram)[0] < 0x40)
		return false;
	if (!secure)
		*error = dtls_connect(&secure, tls, dtls, to, came_up, received, closed, NULL);
	else if (is_up)
		*error = dtls_send(secure, datagram);
	if (!is_up && !held) {
		held = mbuf_alloc(mbuf_get_left(datagram));
		(void)mbuf_write_mem(held, mbuf_buf(datagram), mbuf_get_left(datagram));
		held->pos = 0;
	}
	return true;
}

static void nothing(const struct sa *source, struct mbuf *datagram, void *arg)
{
	(void)source;
	(void)datagram;
	(void)arg;
}

static int secured(char *pem)
{
	struct sa any;
	int error = tls_alloc(&tls, TLS_METHOD_DTLS, pem, NULL);

	if (!error)
		error = dtls_listen(&dtls, NULL, bfcp_sock(connection), 4, 10, NULL, NULL);
	if (!error)
		error = udp_register_helper(&helper, bfcp_sock(connection), 20, catch, NULL, NULL);
	if (!error)
		error = sa_set_str(&any, "127.0.0.1", 0);
	return error ? error : udp_listen(&beside, &any, nothing, NULL);
}

static void act(char *line)
{
	char word[32] = "";
	unsigned number = 0;
	uint16_t value;
	void *arg = (void *)++count;
	int error = EINVAL;

	if (sscanf(line, "%31s %u", word, &number) == 2) {
		value = (uint16_t)number;
		if (!strcmp(word, "ask"))
			error = bfcp_request(connection, &server, BFCP_VER2, number, conference, user, answered, arg, 0);
		else if (!strcmp(word, "request"))
			error = bfcp_request(connection, &server, BFCP_VER2, BFCP_FLOOR_REQUEST, conference, user, answered, arg, 1,
					     BFCP_FLOOR_ID, 0, &value);
		else if (!strcmp(word, "release"))
			error = bfcp_request(connection, &server, BFCP_VER2, BFCP_FLOOR_RELEASE, conference, user, answered, arg, 1,
					     BFCP_FLOOR_REQUEST_ID, 0, &value);
		else if (!strcmp(word, "query"))
			error = bfcp_request(connection, &server, BFCP_VER2, BFCP_FLOOR_QUERY, conference, user, answered, arg, 1,
					     BFCP_FLOOR_ID, 0, &value);
	}
	if (error) {
		printf("refused %s\n", strerror(error));
		fflush(stdout);
	}
}

static void input(int flags, void *arg)
{
	static char text[4096];
	static size_t have;
	ssize_t got = read(0, text + have, sizeof(text) - have - 1);
	char *end;

	(void)flags;
	(void)arg;
	if (got <= 0) {
		re_cancel();
		return;
	}
	have += (size_t)got;
	text[have] = 0;
	while ((end = strchr(text, '\n'))) {
		*end = 0;
		act(text);
		have -= (size_t)(end + 1 - text);
		memmove(text, end + 1, have + 1);
	}
}

int main(int argc, char **argv)
{
	char *pem = argc > 2 && !strcmp(argv[1], "--dtls") ? argv[2] : NULL;
	char **words = argv + (pem ? 3 : 1);
	int error;

	if (argc - (pem ? 3 : 1) != 3)
		return 2;
	setvbuf(stdout, NULL, _IOLBF, 0);
	conference = (uint32_t)strtoul(words[1], NULL, 10);
	user = (uint16_t)atoi(words[2]);
	error = libre_init();
	if (!error)
		error = sa_set_str(&local, "127.0.0.1", 0);
	if (!error)
		error = sa_set_str(&server, "127.0.0.1", (uint16_t)atoi(words[0]));
	if (!error)
		error = bfcp_listen(&connection, BFCP_UDP, &local, NULL, told, NULL);
	if (!error)
		error = udp_local_get(bfcp_sock(connection), &local);
	if (!error && pem)
		error = secured(pem);
	if (!error)
		error = fd_listen(0, FD_READ, input, NULL);
	if (error) {
		fprintf(stderr, "libre: %s\n", strerror(error));
		return 1;
	}
	printf("port %u\n", sa_port(&local));
	error = re_main(NULL);
	fd_close(0);
	secure = mem_deref(secure);
	helper = mem_deref(helper);
	dtls = mem_deref(dtls);
	beside = mem_deref(beside);
	connection = mem_deref(connection);
	tls = mem_deref(tls);
	libre_close();
	return error ? 1 : 0;
}
