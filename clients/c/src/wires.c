/* Wires: connections, and the bytes on them. */
#include "internal.h"

/* A socket that does not block and is connecting to the address, or -1 with errno. */
static int dws_begin_connection(const struct sockaddr_storage *address, socklen_t length)
{
    int on = 1, made = socket(address->ss_family, SOCK_STREAM, 0);
    if (made < 0) {
        return -1;
    }
    if (fcntl(made, F_SETFD, FD_CLOEXEC) == 0 && fcntl(made, F_SETFL, O_NONBLOCK) == 0
        && setsockopt(made, IPPROTO_TCP, TCP_NODELAY, &on, sizeof on) == 0
        && (connect(made, (const struct sockaddr *)address, length) == 0 || errno == EINPROGRESS)) {
        return made;
    }
    int kept = errno;
    close(made);
    errno = kept;
    return -1;
}

/* Reports why an attempt to connect failed. */
void dws_tell_missed(dws_session *s, const char *why)
{
    if (why != s->trouble) {
        snprintf(s->trouble, sizeof s->trouble, "%s", why);
    }
    s->trouble[0] = (char)tolower((unsigned char)s->trouble[0]);
    dws_tell(s, DWS_ATTEMPT_FAILED, s->trouble);
}

/* An attempt to connect has failed. */
static void dws_miss(dws_session *s, const char *why)
{
    dws_hang_up(s);
    dws_tell_missed(s, why);
    if (!s->is_over) {
        dws_act(s, dw_session_failed(&s->machine, dws_at(s, s->now_ms)));
    }
}

/* Dials the host that the library has named, or the next one if hosts are dialled in order. */
void dws_dial(dws_session *s)
{
    struct dws_host *host = &s->hosts[s->options.is_in_order ? s->dials++ % s->host_count : s->place % s->host_count];
    struct sockaddr_storage address;
    socklen_t length = 0;
    s->is_dial_due = false;
    bool is_found = dws_find_address(s, host, &address, &length);
    s->now_ms = dws_now_ms();
    if (!is_found) {
        dws_miss(s, s->trouble);
        return;
    }
    s->wire.socket = dws_begin_connection(&address, length);
    if (s->wire.socket < 0) {
        dws_miss(s, strerror(errno));
        return;
    }
    memcpy(s->dialled, host->name, sizeof s->dialled);
    s->wire.host = s->dialled;
    s->is_connecting = true;
}

/* The attempt to connect is over. */
void dws_finish_connection(dws_session *s)
{
    int error = 0;
    socklen_t length = sizeof error;
    if (getsockopt(s->wire.socket, SOL_SOCKET, SO_ERROR, &error, &length) != 0) {
        error = errno;
    }
    if (error != 0) {
        dws_miss(s, strerror(error));
        return;
    }
    s->is_connecting = false;
    s->write_wants = POLLOUT;
    snprintf(s->trouble, sizeof s->trouble, "connected, and it has not accepted the session");
    dws_begin_login(s);
    enum dw_result result = dw_session_opened(&s->machine, dws_at(s, s->now_ms));
    dws_record_opened(s);
    dws_act(s, result);
}

bool dws_is_passing(int error)
{
    return error == EINTR || error == EAGAIN || error == EWOULDBLOCK;
}

/* Why a read or a write has failed. */
static const char *dws_why_failed(const dws_session *s)
{
    return s->wire.words != NULL ? s->wire.words : strerror(errno);
}

static ssize_t dws_read(dws_session *s, void *room, size_t size)
{
    s->wire.wants = 0;
    if (s->options.read != NULL) {
        return s->options.read(&s->wire, room, size, s->options.context);
    }
    return recv(s->wire.socket, room, size, 0);
}

static ssize_t dws_write(dws_session *s, const void *bytes, size_t size)
{
    s->wire.wants = 0;
    if (s->options.write != NULL) {
        return s->options.write(&s->wire, bytes, size, s->options.context);
    }
    return send(s->wire.socket, bytes, size, MSG_NOSIGNAL);
}

/* Reads the clocks before a wait: its bytes may have come before the system was suspended within it. The clock that is ahead is read first, so that
 * the time between both readings makes an age longer. */
void dws_begin_wait(dws_session *s)
{
    uint64_t elapsed_ms = dws_elapsed_ms();
    s->now_ms = dws_now_ms();
    s->suspended_ms = (int64_t)(elapsed_ms - s->now_ms);
}

/* Hands bytes from the server to the library. */
static void dws_hear(dws_session *s, uint64_t came_ms, const uint8_t *bytes, size_t length)
{
    s->heard_suspended_ms = s->suspended_ms;
    enum dw_result result = dw_session_bytes(&s->machine, dws_at(s, came_ms), bytes, length);
    if (result == DW_NO_MEMORY) {
        dws_cut(s, dw_result_words(result)); /* no step was made */
    } else {
        dws_record_bytes(s, bytes, length);
        dws_act(s, result);
    }
}

/* Takes bytes that came. During a log-in the library gets only those meant for it. */
static void dws_take_bytes_in(dws_session *s, uint64_t came_ms, const uint8_t *bytes, size_t length)
{
    struct dws_bytes passed;
    dws_observe_bytes(s, DWS_SAW_BYTES_IN, length);
    if (!s->login.is_begun) {
        dws_hear(s, came_ms, bytes, length);
    } else if (dws_log_in(s, bytes, length, &passed)) {
        dws_hear(s, came_ms, passed.at, passed.length);
        free(passed.at);
    }
}

/* Reads the bytes that the connection has. */
void dws_receive(dws_session *s)
{
    uint8_t piece[DWS_PIECE];
    uint64_t came_ms = dws_in_time(s);
    s->has_more = true;
    for (size_t all = 0, size; all < DWS_MOST_READ && s->wire.socket >= 0 && s->has_more; all += size) {
        uint8_t *room = s->large != NULL ? s->large : piece;
        size = s->large != NULL ? (size_t)DWS_LARGE_PIECE : sizeof piece;
        ssize_t count = dws_read(s, room, size);
        if (count > 0) {
            dws_take_bytes_in(s, came_ms, room, (size_t)count);
            bool is_full = count == (ssize_t)size;
            s->has_more = s->options.read != NULL || is_full || s->sent.count > 0; /* else poll reports more */
            s->large = is_full && s->large == NULL ? (uint8_t *)malloc(DWS_LARGE_PIECE) : s->large;
        } else if (count == 0) {
            dws_cut(s, "the server has ended the connection");
        } else if (dws_is_passing(errno)) {
            s->has_more = false;
        } else {
            dws_cut(s, dws_why_failed(s));
        }
    }
    s->read_wants = s->wire.wants;
    s->has_more = s->has_more && s->wire.socket >= 0;
}

/* Writes as much as the connection takes. The rest waits for poll. */
void dws_transmit(dws_session *s)
{
    size_t may_send = s->is_connecting || s->wire.socket < 0 ? 0 : dws_may_send(s);
    if (may_send == 0) {
        return;
    }
    ssize_t count = dws_write(s, s->unsent.at, may_send);
    if (count >= 0) {
        dws_observe_bytes(s, DWS_SAW_BYTES_OUT, (size_t)count);
        s->login.left -= s->login.is_begun ? (size_t)count : 0;
        s->unsent.length -= (size_t)count;
        memmove(s->unsent.at, s->unsent.at + count, s->unsent.length);
        if (s->credentials != NULL) { /* they may be among the bytes */
            dws_wipe(s->unsent.at + s->unsent.length, (size_t)count);
        }
        s->write_wants = POLLOUT;
    } else if (dws_is_passing(errno)) {
        s->write_wants = s->wire.wants != 0 ? s->wire.wants : POLLOUT;
    } else {
        dws_cut(s, dws_why_failed(s));
    }
}
