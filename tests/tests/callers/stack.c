/* How many bytes of stack a call takes; the first word says which call. Each time it is made on a thread of its own, whose stack has a pattern in
 * it beforehand: what it took reaches from where the thread makes the call down to the lowest word that is another one afterwards.
 *
 * Standard input has trace files, or images, each with its length before it (8 bytes, the lowest first). Each is given to the call without a buffer and
 * with one that is long enough. Prints the most that was taken. */
#define _XOPEN_SOURCE 600
#include "consistency.h"
#include <pthread.h>
#include <stdio.h>
#include <stdlib.h>
#include <string.h>

#define STACK_WORDS 16384
#define PATTERN UINT64_C(0x5aa5c33c96690ff0)

static _Alignas(4096) volatile uint64_t stack[STACK_WORDS];
static uint8_t file[CONSISTENCY_LONGEST_FILE + 1024], buffer[CONSISTENCY_LONGEST_IMAGE + CONSISTENCY_LONGEST_REPLAY];
static uint8_t kept[CONSISTENCY_LONGEST_FILE], text[CONSISTENCY_LONGEST_REPORT];
static struct consistency_session session;
static uint64_t words[CONSISTENCY_JUDGE_WORDS], rows[CONSISTENCY_MOST_COMMITS];
static size_t file_length, buffer_length;
static const char *start;

static void *judge(void *nothing) {
    start = __builtin_frame_address(0);
    judge_file(file, file_length, buffer, buffer_length, words, CONSISTENCY_JUDGE_WORDS);
    return nothing;
}

static void *plain(void *nothing) {
    start = __builtin_frame_address(0);
    plain_file(file, file_length, words, CONSISTENCY_JUDGE_WORDS);
    return nothing;
}

static void *replay(void *nothing) {
    start = __builtin_frame_address(0);
    replay_file(file, file_length, buffer, buffer_length, words, CONSISTENCY_REPLAY_WORDS);
    return nothing;
}

static void *shorten(void *nothing) {
    start = __builtin_frame_address(0);
    short_file(file, file_length, buffer, buffer_length, words, CONSISTENCY_CONVERSION_WORDS);
    return nothing;
}

static void *lengthen(void *nothing) {
    start = __builtin_frame_address(0);
    long_file(file, file_length, buffer, buffer_length, words, CONSISTENCY_CONVERSION_WORDS);
    return nothing;
}

static void *report(void *nothing) {
    start = __builtin_frame_address(0);
    report_file(file, file_length, buffer, buffer_length, text, sizeof text);
    return nothing;
}

static void *judge_one(void *nothing) {
    start = __builtin_frame_address(0);
    judge_image(file, file_length, buffer, buffer_length, words, CONSISTENCY_IMAGE_WORDS);
    return nothing;
}

static void *see(void *nothing) {
    start = __builtin_frame_address(0);
    visibility_file(file, file_length, buffer, buffer_length, rows, CONSISTENCY_MOST_COMMITS, words, CONSISTENCY_JUDGE_WORDS);
    return nothing;
}

/* The record is one that is there, so that a call needs no other before it. */
static void *open_one(void *nothing) {
    start = __builtin_frame_address(0);
    open_session(&session);
    return nothing;
}

static void *push(void *nothing) {
    session.total = session.closed = 0;
    start = __builtin_frame_address(0);
    push_piece(&session, kept, buffer_length ? sizeof kept : 0, file, file_length);
    return nothing;
}

static void *close_one(void *nothing) {
    session.total = file_length, session.closed = 0;
    start = __builtin_frame_address(0);
    close_session(&session, file, sizeof file, buffer, buffer_length, words, CONSISTENCY_JUDGE_WORDS);
    return nothing;
}

static void *report_one(void *nothing) {
    session.total = file_length, session.closed = 0;
    start = __builtin_frame_address(0);
    report_session(&session, file, sizeof file, buffer, buffer_length, text, sizeof text);
    return nothing;
}

static const struct {
    const char *name;
    void *(*make)(void *);
} calls[] = {{"judge_file", judge}, {"plain_file", plain}, {"replay_file", replay}, {"short_file", shorten}, {"long_file", lengthen}, {"report_file", report},
             {"judge_image", judge_one}, {"visibility_file", see}, {"open_session", open_one}, {"push_piece", push}, {"close_session", close_one}, {"report_session", report_one}};

static void must(int holds, const char *what) {
    if (holds) return;
    fprintf(stderr, "%s\n", what);
    exit(1);
}

static size_t taken_by(void *(*make)(void *)) {
    pthread_attr_t attributes;
    pthread_t thread;
    size_t i;
    for (i = 0; i < STACK_WORDS; i++) stack[i] = PATTERN;
    must(pthread_attr_init(&attributes) == 0, "no attributes of a thread");
    must(pthread_attr_setstack(&attributes, (void *)stack, sizeof stack) == 0, "no such stack");
    must(pthread_create(&thread, &attributes, make, NULL) == 0, "no thread");
    must(pthread_join(thread, NULL) == 0, "the thread does not end");
    must(pthread_attr_destroy(&attributes) == 0, "no attributes of a thread");
    must(stack[0] == PATTERN, "the whole stack was taken");
    for (i = 0; stack[i] == PATTERN;) i++;
    return (size_t)(start - (const char *)&stack[i]);
}

int main(int count, char **names) {
    uint8_t length[8];
    size_t call = 0, most = 0, i;
    must(count == 2, "which call?");
    while (strcmp(calls[call].name, names[1]) != 0) must(++call < sizeof calls / sizeof *calls, "no such call");
    while (fread(length, 1, sizeof length, stdin) == sizeof length) {
        for (file_length = 0, i = sizeof length; i > 0; i--) file_length = file_length << 8 | length[i - 1];
        must(file_length <= sizeof file && fread(file, 1, file_length, stdin) == file_length, "not a file");
        for (i = 0; i < 2; i++) {
            buffer_length = i * sizeof buffer;
            size_t taken = taken_by(calls[call].make);
            if (taken > most) most = taken;
        }
    }
    printf("%zu\n", most);
    return fflush(stdout) || ferror(stdin);
}
