#include "lines.h"

#include "expect.h"

#include <stdarg.h>
#include <string.h>

/* The most bytes of a text in a test. */
enum { ROOM = 512 };

uint32_t read_int(const uint8_t *at)
{
    return (uint32_t)at[0] << 24 | (uint32_t)at[1] << 16 | (uint32_t)at[2] << 8 | at[3];
}

static void add_list(struct lines *lines, const char *format, va_list values)
{
    size_t room = sizeof lines->at - lines->length;
    int length = vsnprintf(lines->at + lines->length, room, format, values);
    EXPECT(length >= 0 && (size_t)length < room);
    lines->length += (size_t)length;
}

static void add(struct lines *lines, const char *format, ...)
{
    va_list values;
    va_start(values, format);
    add_list(lines, format, values);
    va_end(values);
}

void add_line(struct lines *lines, const char *format, ...)
{
    va_list values;
    va_start(values, format);
    add_list(lines, format, values);
    va_end(values);
    add(lines, "\n");
}

static void add_stat(struct lines *lines, const dw_stat *stat)
{
    add(lines, " [%" PRId64 " %" PRId64 " %" PRId64 " %" PRId64, stat->czxid, stat->mzxid, stat->ctime, stat->mtime);
    add(lines, " %" PRId32 " %" PRId32 " %" PRId32, stat->version, stat->cversion, stat->aversion);
    add(lines, " %" PRId64 " %" PRId32 " %" PRId32, stat->ephemeral_owner, stat->data_length, stat->num_children);
    add(lines, " %" PRId64 "]", stat->pzxid);
}

static void add_text(struct lines *lines, dw_session *session, const dw_output *output)
{
    char text[ROOM];
    EXPECT(output->length <= sizeof text);
    EXPECT_NUMBER(output->length, dw_session_copy(session, 0, text, sizeof text));
    add(lines, " \"%.*s\"", (int)output->length, text);
}

static void add_frame(struct lines *lines, dw_session *session, const dw_output *output)
{
    uint8_t frame[ROOM];
    EXPECT(output->length <= sizeof frame);
    EXPECT_NUMBER(output->length, dw_session_copy(session, 0, frame, sizeof frame));
    add(lines, "send ");
    for (size_t i = 0; i < output->length; i++) {
        add(lines, "%02x", frame[i]);
    }
}

static void add_names(struct lines *lines, dw_session *session, const dw_output *output)
{
    char name[ROOM];
    for (size_t i = 0; i < output->names; i++) {
        size_t length = dw_session_name(session, i, name, sizeof name);
        EXPECT(length <= sizeof name);
        add(lines, " \"%.*s\"", (int)length, name);
    }
}

static void add_reply(struct lines *lines, dw_session *session, const dw_output *output)
{
    static const char *const results[] = {"", "code", "stat", "data", "names", "created", "done", "raw"};
    EXPECT(output->reply >= DW_REPLY_CODE && output->reply <= DW_REPLY_RAW);
    add(lines, "answer %" PRIu64 " at %" PRId64 " %s", output->ticket, output->zxid, results[output->reply]);
    if (output->reply == DW_REPLY_CODE) {
        add(lines, " %" PRId32, output->code);
    } else if (output->is_null) {
        add(lines, " null");
    } else if (output->reply == DW_REPLY_DATA || output->reply == DW_REPLY_CREATED) {
        add_text(lines, session, output);
    }
    add_names(lines, session, output);
    EXPECT(output->has_stat == (output->reply == DW_REPLY_STAT || output->reply == DW_REPLY_DATA || output->reply == DW_REPLY_NAMES));
    if (output->has_stat) {
        add_stat(lines, &output->stat);
    }
}

static void add_drop(struct lines *lines, dw_session *session, const dw_output *output)
{
    char words[ROOM];
    size_t length;
    add(lines, "drop %d", (int)output->cause);
    add_text(lines, session, output);
    EXPECT_NUMBER(DW_OK, dw_session_words(session, words, sizeof words, &length));
    EXPECT(length > 0 && length <= sizeof words);
    add(lines, " %.*s", (int)length, words);
}

static void add_output(struct lines *lines, dw_session *session, const dw_output *output)
{
    switch (output->kind) {
    case DW_KIND_DIAL: add(lines, "dial %zu %" PRIu64, output->place, output->within_ms); break;
    case DW_KIND_HANG_UP: add(lines, "hang up"); break;
    case DW_KIND_SEND: add_frame(lines, session, output); break;
    case DW_KIND_ANSWER:
        if (output->outcome == DW_OUTCOME_REPLIED) {
            add_reply(lines, session, output);
        } else {
            add(lines, "answer %" PRIu64 " K%d", output->ticket, (int)output->outcome);
        }
        break;
    case DW_KIND_REPORT:
        add(lines, "report %d %d", (int)output->event, (int)output->side);
        add_text(lines, session, output);
        break;
    case DW_KIND_STATE: add(lines, "state %d", (int)output->state); break;
    case DW_KIND_DROP: add_drop(lines, session, output); break;
    default:
        EXPECT(output->kind >= DW_KIND_TIMED_OUT && output->kind <= DW_KIND_CREDENTIAL);
        add(lines, "kind %d %" PRIu64, (int)output->kind, output->ticket);
    }
    add(lines, "\n");
}

void add_outputs(struct lines *lines, dw_session *session)
{
    dw_output output;
    enum dw_result result;
    while ((result = dw_session_next(session, &output)) == DW_OK) {
        add_output(lines, session, &output);
    }
    EXPECT_NUMBER(DW_NONE, result);
}

enum dw_result add_kept_data(struct lines *lines, dw_session *session, const char *path)
{
    uint8_t data[ROOM];
    dw_kept_data kept;
    enum dw_result result = dw_session_peek_data(session, path, strlen(path), &kept, data, sizeof data);
    if (result != DW_OK) {
        return result;
    }
    EXPECT(kept.length <= sizeof data);
    add_line(lines, "data %d %d \"%.*s\"", (int)kept.kind, (int)kept.mark, (int)kept.length, data);
    return DW_OK;
}

/* The name of this index that is kept of a path is this one. */
static enum dw_result expect_kept_name(dw_session *session, const char *path, size_t index, const uint8_t *name, size_t length)
{
    char room[ROOM];
    size_t count;
    enum dw_result result = dw_session_peek_name(session, path, strlen(path), index, room, sizeof room, &count);
    if (result == DW_OK) {
        EXPECT_NUMBER(length, count);
        EXPECT(memcmp(name, room, length) == 0);
    }
    return result;
}

/* Adds this many names that are kept of a path; each comes after its length, and equals the name of its index. */
static enum dw_result add_all_names(struct lines *lines, dw_session *session, const char *path, size_t names)
{
    uint8_t spelled[ROOM];
    size_t count, at = 0;
    enum dw_result result = dw_session_peek_names(session, path, strlen(path), spelled, sizeof spelled, &count);
    EXPECT(count <= sizeof spelled);
    for (size_t i = 0; i < names && result == DW_OK; i++) {
        const uint8_t *name = spelled + at + 4;
        size_t length = read_int(spelled + at);
        at += 4 + length;
        EXPECT(at <= count);
        add(lines, " \"%.*s\"", (int)length, name);
        result = expect_kept_name(session, path, i, name, length);
    }
    EXPECT(result != DW_OK || at == count);
    return result;
}

enum dw_result add_kept_names(struct lines *lines, dw_session *session, const char *path)
{
    dw_kept_names kept;
    size_t before = lines->length;
    enum dw_result result = dw_session_peek_children(session, path, strlen(path), &kept);
    if (result != DW_OK) {
        return result;
    }
    add(lines, "names %d %" PRId64, (int)kept.mark, kept.pzxid);
    result = add_all_names(lines, session, path, kept.count);
    add(lines, "\n");
    lines->length = result == DW_OK ? lines->length : before;
    return result;
}
