/* The record of a session: the inputs of its library and the frames that it sends, as lines that zk_shell replays and shows. It has no secret: the
 * password in the request for a session and in the answer is zeros, and so is all of a credential. */
#include "internal.h"

/* Offsets within frames, as in zookeeper.jute: after the length, the xid and the type of a request; and the passwords of a ConnectRequest and of a
 * ConnectResponse, each after its length. */
enum { DWS_AT_XID = 4, DWS_AT_TYPE = 8, DWS_AT_RECORD = 12, DWS_AT_SENT_PASSWORD = 32, DWS_AT_CAME_PASSWORD = 24 };
enum { DWS_XID_AUTH = -4 };

static FILE *dws_record(const dws_session *s)
{
    return s->recorder.file;
}

uint64_t dws_at(dws_session *s, uint64_t now_ms)
{
    s->recorder.now_ms = now_ms;
    return now_ms;
}

/* Writes bytes in hexadecimal digits, and zeros for those between two places. */
static void dws_record_hex(FILE *file, const uint8_t *bytes, size_t length, size_t hidden_from, size_t hidden_to)
{
    static const char digits[] = "0123456789abcdef";
    for (size_t i = 0; i < length; i++) {
        uint8_t one = i >= hidden_from && i < hidden_to ? 0 : bytes[i];
        putc_unlocked(digits[one >> 4], file);
        putc_unlocked(digits[one & 15], file);
    }
}

/* Writes bytes as a word. Null bytes and no bytes have words of their own. */
static void dws_record_data(FILE *file, const uint8_t *bytes, int32_t length)
{
    if (length <= 0) {
        fputs(length < 0 ? " \\0" : " \\e", file);
        return;
    }
    putc_unlocked(' ', file);
    dws_record_hex(file, bytes, (size_t)length, 0, 0);
}

/* Writes a path as a word. */
static void dws_record_path(FILE *file, const uint8_t *path, size_t length)
{
    putc_unlocked(' ', file);
    for (size_t i = 0; i < length; i++) {
        if (path[i] > ' ' && path[i] <= '~' && path[i] != '\\') {
            putc_unlocked(path[i], file);
        } else {
            fprintf(file, "\\x%02x", path[i]);
        }
    }
}

/* Writes the moment, if it differs from the last line's. */
static void dws_record_moment(dws_session *s)
{
    struct dws_recorder *record = &s->recorder;
    if (!record->is_begun) {
        record->is_begun = true;
        record->begun_ms = record->now_ms;
        record->told_ms = record->now_ms + 1;
    }
    if (record->told_ms != record->now_ms) {
        record->told_ms = record->now_ms;
        fprintf(record->file, "now %" PRIu64 "\n", record->now_ms < record->begun_ms ? 0 : record->now_ms - record->begun_ms);
    }
}

/* Writes a line of one word. */
static void dws_record_word(dws_session *s, const char *word)
{
    if (dws_record(s) != NULL) {
        dws_record_moment(s);
        fprintf(dws_record(s), "%s\n", word);
    }
}

bool dws_open_record(dws_session *s, char *why, size_t size)
{
    const char *path = s->options.record;
    struct timespec now = {0, 0};
    if (path == NULL) {
        return true;
    }
    int file = open(path, O_WRONLY | O_CREAT | O_TRUNC | O_CLOEXEC, 0600);
    s->recorder.file = file < 0 ? NULL : fdopen(file, "w");
    if (dws_record(s) == NULL) {
        dws_end_cut(why, size, snprintf(why, size, "the record %s: %s", path, strerror(errno)));
        if (file >= 0) { /* there is no memory */
            close(file);
        }
        return false;
    }
    clock_gettime(CLOCK_REALTIME, &now);
    fprintf(dws_record(s), "# dirwolleu %s record 1 of %" PRId64 "\n", DW_VERSION, (int64_t)now.tv_sec * 1000 + now.tv_nsec / 1000000);
    return true;
}

void dws_record_session(dws_session *s, int64_t id, size_t password, int64_t zxid)
{
    if (dws_record(s) != NULL) {
        fprintf(dws_record(s), "resume %" PRId32 " %" PRId64 " ", s->options.timeout_ms, id);
        for (size_t i = 0; i < 2 * password; i++) {
            putc_unlocked('0', dws_record(s));
        }
        fprintf(dws_record(s), "%s %" PRId64 "\n", password == 0 ? "\\e" : "", zxid);
    }
}

void dws_record_machine(dws_session *s, const uint8_t *saved, size_t length)
{
    if (dws_record(s) != NULL && saved == NULL) {
        fprintf(dws_record(s), "timeout %" PRId32 "\n", s->options.timeout_ms);
    } else if (dws_record(s) != NULL) {
        dws_record_session(s, dws_read_long(saved), dws_read_int(saved + 8), dws_read_long(saved + length - 8));
    }
}

void dws_record_opened(dws_session *s)
{
    s->recorder.is_open = true;
    s->recorder.has_sent = false;
    s->recorder.came = s->recorder.password = 0;
    dws_record_word(s, "opened");
}

void dws_record_cut(dws_session *s)
{
    if (s->recorder.is_open) {
        s->recorder.is_open = false;
        dws_record_word(s, "cut");
    }
}

void dws_record_bytes(dws_session *s, const uint8_t *bytes, size_t length)
{
    struct dws_recorder *record = &s->recorder;
    size_t before = record->came, password = DWS_AT_CAME_PASSWORD;
    if (dws_record(s) == NULL) {
        return;
    }
    for (size_t i = 0; i < length && before + i < password; i++) { /* its length is the last four bytes */
        record->password = record->password << 8 | bytes[i];
    }
    record->came += length;
    size_t end = password + record->password;
    dws_record_moment(s);
    fputs("bytes ", dws_record(s));
    dws_record_hex(dws_record(s), bytes, length, before < password ? password - before : 0, before < end ? end - before : 0);
    putc_unlocked('\n', dws_record(s));
}

/* The word of a call in a record, by the type of its request; NULL if the library does not read its bytes. */
static const char *dws_recorded_as(int32_t type)
{
    switch (type) {
    case 1: return "create";
    case 2: return "delete";
    case 3: return "exists";
    case 4: return "getdata";
    case 5: return "setdata";
    case 12: return "getchildren";
    case -11: return "close";
    }
    return NULL;
}

/* Writes the call that made the library send this request. The library makes only well-formed requests. */
static void dws_record_call(FILE *file, const uint8_t *frame, size_t length)
{
    int32_t type = (int32_t)dws_read_int(frame + DWS_AT_TYPE);
    const char *name = dws_recorded_as(type);
    const uint8_t *record = frame + DWS_AT_RECORD, *end = frame + length;
    fprintf(file, "call %" PRIu32 " ", dws_read_int(frame + DWS_AT_XID));
    if (name == NULL) {
        fprintf(file, "raw %" PRId32, type);
        dws_record_data(file, record, (int32_t)(end - record));
        putc_unlocked('\n', file);
        return;
    }
    fputs(name, file);
    if (end > record) {
        uint32_t path = dws_read_int(record);
        const uint8_t *after = record + 4 + path;
        bool is_read = name[0] == 'e' || name[0] == 'g';
        dws_record_path(file, record + 4, path);
        if (name[0] == 's' || name[0] == 'c') {
            dws_record_data(file, after + 4, (int32_t)dws_read_int(after));
        }
        fprintf(file, " %" PRId32, is_read ? end[-1] : (int32_t)dws_read_int(end - 4));
    }
    putc_unlocked('\n', file);
}

void dws_record_frame(dws_session *s, const uint8_t *frame, size_t length)
{
    size_t from = 0, to = 0;
    if (dws_record(s) == NULL) {
        return;
    }
    int32_t xid = (int32_t)dws_read_int(frame + DWS_AT_XID);
    dws_record_moment(s);
    if (!s->recorder.has_sent) {
        from = DWS_AT_SENT_PASSWORD;
        to = from + dws_read_int(frame + DWS_AT_SENT_PASSWORD - 4);
    } else if (xid == DWS_XID_AUTH) {
        from = DWS_AT_RECORD;
        to = length;
    } else if (xid >= 0) {
        dws_record_call(dws_record(s), frame, length);
    }
    s->recorder.has_sent = true;
    fputs("> ", dws_record(s));
    dws_record_hex(dws_record(s), frame, length, from, to);
    putc_unlocked('\n', dws_record(s));
}

void dws_end_record(dws_session *s)
{
    FILE *file = dws_record(s);
    s->recorder.file = NULL;
    if (file != NULL) {
        fclose(file);
    }
}

void dws_flush_record(dws_session *s)
{
    char words[256];
    if (dws_record(s) == NULL) {
        return;
    }
    errno = 0;
    if (fflush(dws_record(s)) != 0 || ferror(dws_record(s))) {
        snprintf(words, sizeof words, "the record ends: %s", strerror(errno != 0 ? errno : EIO));
        dws_end_record(s);
        dws_tell(s, DWS_RECORD_ENDED, words);
    }
}
