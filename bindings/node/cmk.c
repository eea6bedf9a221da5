/* The calls of libcmk for index.js, which checks all arguments:
 *
 *   call(job, text, bytes, blocks, inlines, flags)     returns the output, or [number, place] of an error
 *   start(job, text, bytes, blocks, inlines, flags)    returns a promise of that, made on another thread
 *   line(number, place)                                returns the line of an error
 *   version()                                          returns the number of the library's version
 *
 * A text is a Uint8Array. Its bytes are read where they are, so nobody may write to them before a promise is settled. */
#define NAPI_VERSION 8
#include <cmk.h>
#include <node_api.h>
#include <stdio.h>

typedef uint32_t (*cmk_call)(const char *, size_t, const cmk_options *, cmk_output *);

static const cmk_call CALLS[] = {cmk_html, cmk_tree, cmk_json, cmk_rewrite};

typedef struct {
    cmk_call call;
    const char *text;
    size_t length;
    cmk_options options;
    cmk_output output;
    uint32_t number;
} job;

/* A job of another thread. */
typedef struct {
    job job;
    napi_ref text;
    napi_async_work work;
    napi_deferred promise;
} task;

static napi_value thrown(napi_env env, const char *why) {
    bool is_pending = false;
    if (napi_is_exception_pending(env, &is_pending) == napi_ok && !is_pending) napi_throw_error(env, NULL, why);
    return NULL;
}

/* Reads the arguments of a call, and the text among them. Keeps nothing. */
static bool read_arguments(napi_env env, napi_callback_info info, job *it, napi_value *text) {
    napi_value given[6];
    size_t count = 6;
    uint32_t which, bytes, blocks, inlines, flags;
    void *first = NULL;
    if (napi_get_cb_info(env, info, &count, given, NULL, NULL) != napi_ok || napi_get_value_uint32(env, given[0], &which) != napi_ok ||
        napi_get_typedarray_info(env, given[1], NULL, &it->length, &first, NULL, NULL) != napi_ok ||
        napi_get_value_uint32(env, given[2], &bytes) != napi_ok || napi_get_value_uint32(env, given[3], &blocks) != napi_ok ||
        napi_get_value_uint32(env, given[4], &inlines) != napi_ok || napi_get_value_uint32(env, given[5], &flags) != napi_ok) {
        return false;
    }
    *text = given[1];
    it->call = CALLS[which % 4];
    it->text = first;
    it->options = (cmk_options){bytes, blocks, inlines, flags & 1, flags & 2, flags & 4, flags & 8};
    it->output = (cmk_output)CMK_OUTPUT;
    return true;
}

static void run(napi_env env, void *data) {
    (void)env;
    job *it = data;
    it->number = it->call(it->text, it->length, &it->options, &it->output);
}

/* Returns what a job gave, or NULL if Node can't hold it. The output is freed. */
static napi_value answer(napi_env env, job *it) {
    napi_value given = NULL, number, place;
    bool is_made;
    if (it->number == CMK_DONE) {
        is_made = napi_create_string_utf8(env, it->output.bytes, it->output.length, &given) == napi_ok;
    } else {
        is_made = napi_create_array_with_length(env, 2, &given) == napi_ok && napi_create_uint32(env, it->number, &number) == napi_ok &&
                  napi_create_double(env, (double)it->output.place, &place) == napi_ok && napi_set_element(env, given, 0, number) == napi_ok &&
                  napi_set_element(env, given, 1, place) == napi_ok;
    }
    cmk_free(&it->output);
    return is_made ? given : NULL;
}

static const char TOO_LONG[] = "the output is longer than a string of this runtime";
static const char WRONG[] = "cmk was called with wrong arguments, or there is no memory";

static napi_value call(napi_env env, napi_callback_info info) {
    job it;
    napi_value text;
    if (!read_arguments(env, info, &it, &text)) return thrown(env, WRONG);
    run(env, &it);
    napi_value given = answer(env, &it);
    return given ? given : thrown(env, TOO_LONG);
}

/* Frees a task and what it has of Node. */
static void end(napi_env env, task *it) {
    if (it->work) napi_delete_async_work(env, it->work);
    if (it->text) napi_delete_reference(env, it->text);
    free(it);
}

static void reject(napi_env env, napi_deferred promise, const char *why) {
    napi_value text, error = NULL;
    if (napi_create_string_utf8(env, why, NAPI_AUTO_LENGTH, &text) == napi_ok && napi_create_error(env, NULL, text, &error) == napi_ok) {
        napi_reject_deferred(env, promise, error);
    }
}

static void settle(napi_env env, napi_status status, void *data) {
    task *it = data;
    napi_value given = answer(env, &it->job);
    if (status == napi_ok && given) napi_resolve_deferred(env, it->promise, given);
    else reject(env, it->promise, TOO_LONG);
    end(env, it);
}

static napi_value start(napi_env env, napi_callback_info info) {
    napi_value text, name, promise;
    task *it = calloc(1, sizeof *it);
    if (!it) return thrown(env, WRONG);
    if (!read_arguments(env, info, &it->job, &text) || napi_create_reference(env, text, 1, &it->text) != napi_ok ||
        napi_create_string_utf8(env, "cmk", NAPI_AUTO_LENGTH, &name) != napi_ok ||
        napi_create_async_work(env, NULL, name, run, settle, it, &it->work) != napi_ok ||
        napi_create_promise(env, &it->promise, &promise) != napi_ok) {
        end(env, it);
        return thrown(env, WRONG);
    }
    if (napi_queue_async_work(env, it->work) != napi_ok) {
        reject(env, it->promise, WRONG);
        end(env, it);
    }
    return promise;
}

static napi_value line(napi_env env, napi_callback_info info) {
    napi_value given[2], text;
    size_t count = 2;
    uint32_t number;
    int64_t place;
    char room[CMK_LINE_ROOM];
    cmk_filled filled;
    if (napi_get_cb_info(env, info, &count, given, NULL, NULL) != napi_ok || napi_get_value_uint32(env, given[0], &number) != napi_ok ||
        napi_get_value_int64(env, given[1], &place) != napi_ok) {
        return thrown(env, WRONG);
    }
    size_t length = cmk_fault_text(number, (size_t)place, room, sizeof room, &filled) == CMK_DONE
                        ? filled.length - 1 /* without its line feed */
                        : (size_t)snprintf(room, sizeof room, "cmk: answer %u at %lld", number, (long long)place);
    return napi_create_string_utf8(env, room, length, &text) == napi_ok ? text : thrown(env, WRONG);
}

static napi_value version(napi_env env, napi_callback_info info) {
    napi_value number;
    (void)info;
    return napi_create_uint32(env, cmk_version(), &number) == napi_ok ? number : thrown(env, WRONG);
}

NAPI_MODULE_INIT() {
    const napi_property_descriptor offered[] = {
        {"call", NULL, call, NULL, NULL, NULL, napi_default, NULL},
        {"start", NULL, start, NULL, NULL, NULL, napi_default, NULL},
        {"line", NULL, line, NULL, NULL, NULL, napi_default, NULL},
        {"version", NULL, version, NULL, NULL, NULL, napi_default, NULL},
    };
    return napi_define_properties(env, exports, sizeof offered / sizeof *offered, offered) == napi_ok ? exports : NULL;
}
