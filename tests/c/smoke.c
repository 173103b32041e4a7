/* Calls each function of the library, also with NULL for slices of length 0, and prints what it answers. */
#include <inttypes.h>
#include <stdio.h>
#include <string.h>

#include "fadzgime.h"

static void show(const char *name, const uint64_t *answer, size_t count) {
    printf("%s", name);
    for (size_t i = 0; i < count; i++) {
        printf(" %" PRIu64, answer[i]);
    }
    printf("\n");
}

static void show_bytes(const uint8_t *bytes, size_t count) {
    for (size_t i = 0; i < count; i++) {
        printf("%02x", bytes[i]);
    }
    printf("\n");
}

/* The unequal pairs of a word, each once. */
static void show_pairs(uint64_t word) {
    printf("pairs");
    for (int a = 0; a < 8; a++) {
        for (int b = a + 1; b < 8; b++) {
            if (word >> (8 * a + b) & 1) {
                printf(" %d-%d", a, b);
            }
        }
    }
    printf("\n");
}

int main(void) {
    /* Three registers and one one-argument function: r2 := f(r0), r0 = r1. */
    static const uint8_t trace[] = {0x32, 0x00, 0x44, 0x00, 0x80, 0x08};
    static const char macro[] = "vars x y; assert x = y;";
    static const uint8_t *const text = (const uint8_t *)macro;
    static const char loop[] = "vars x y; funs n/1; while x != y { x := n(x); } assert x = y;";
    static const uint8_t *const passing = (const uint8_t *)loop;
    /* A macro typed in capitals and small letters, and a name declared in two spellings. */
    static const char capitals[] = "VARS Cap y; Assert cAP != Y;";
    static const uint8_t *const typed = (const uint8_t *)capitals;
    static const char repeated[] = "vars cap CAP;";
    /* A macro that the layout changes, one that it prints as it stands with an LF, and one that is refused. */
    static const char loose[] = "VARS a B;If A=b{}Else{}";
    static const uint8_t *const untidy = (const uint8_t *)loose;
    static const char line[] = "vars x;";
    static const uint8_t *const tidy = (const uint8_t *)line;
    static const char unknown[] = "vars x; x := y;";
    uint8_t table[576];
    uint8_t out[64];
    uint64_t answer[6];
    /* The same letters unpacked, also without their last bytes, and one with the argument twice. */
    static const uint8_t letters[] = {1, 0, 2, 0, 0, 2, 0, 0, 0, 1};
    static const uint8_t twice[] = {1, 0, 2, 1, 1};
    uint8_t state[FADZGIME_STREAM_STATE];
    /* Three registers: r0 != r1, r2 := r0, r0 := r1, r0 = r2. */
    static const uint16_t apart[] = {0xc008, 0x0400, 0x0040, 0x8010};
    uint64_t unequal[FADZGIME_UNEQUAL_ANSWER];
    uint64_t classes[FADZGIME_CLASSES_ANSWER];
    /* Six registers and one function: r2 := f(r0), r3 := f(r1), r4 := f(r2), r5 := f(r3), r0 = r1, r5 := r0, r4 := f(r0). */
    static const uint16_t merging[] = {0x4400, 0x4640, 0x4880, 0x4ac0, 0x8008, 0x0a00, 0x4800};
    /* A trace with the largest model: 1,024 times r0 := f(r0), under eight registers. */
    static uint8_t longest[2 + 2 * 1024];
    static uint8_t largest[FADZGIME_MODEL_OUTPUT];

    fadzgime_write(3, 1, 0, letters, sizeof letters, out, sizeof out, answer, 3);
    show("write", answer, 3);
    show_bytes(out, (size_t)answer[2]);
    fadzgime_write(3, 1, 0, twice, sizeof twice, out, sizeof out, answer, 3);
    show("write", answer, 3);
    fadzgime_write(3, 1, 0, letters, 7, out, sizeof out, answer, 3);
    show("write", answer, 3);
    fadzgime_read_trace(trace, sizeof trace, out, sizeof out, answer, 6);
    show("read_trace", answer, 6);
    show_bytes(out, 5 * (size_t)answer[5]);

    fadzgime_monitor_step(0x4400, state, 0, answer, 4);
    show("monitor_step", answer, 4);
    fadzgime_monitor_start(0x3200, state, sizeof state, answer, 4);
    show("monitor_start", answer, 4);
    fadzgime_monitor_step(0x4400, state, sizeof state, answer, 4);
    show("monitor_step", answer, 4);
    fadzgime_monitor_step(0xffff, state, sizeof state, answer, 4);
    show("monitor_step", answer, 4);
    fadzgime_monitor_step(0xc000, state, sizeof state, answer, 4);
    show("monitor_step", answer, 4);

    fadzgime_monitor_unequal(state, 0, unequal, FADZGIME_UNEQUAL_ANSWER);
    show("monitor_unequal", unequal, FADZGIME_UNEQUAL_ANSWER);
    fadzgime_monitor_start(0x3000, state, sizeof state, answer, 4);
    fadzgime_monitor_unequal(state, sizeof state, unequal, FADZGIME_UNEQUAL_ANSWER);
    show("monitor_unequal", unequal, FADZGIME_UNEQUAL_ANSWER);
    for (size_t i = 0; i < sizeof apart / sizeof apart[0]; i++) {
        fadzgime_monitor_step(apart[i], state, sizeof state, answer, 4);
        fadzgime_monitor_unequal(state, sizeof state, unequal, FADZGIME_UNEQUAL_ANSWER);
        show("monitor_unequal", unequal, FADZGIME_UNEQUAL_ANSWER);
        show_pairs(unequal[1]);
    }

    fadzgime_monitor_classes(state, 0, classes, FADZGIME_CLASSES_ANSWER);
    show("monitor_classes", classes, FADZGIME_CLASSES_ANSWER);
    fadzgime_monitor_classes(state, FADZGIME_MONITOR_STATE - 1, classes, FADZGIME_CLASSES_ANSWER);
    show("monitor_classes", classes, FADZGIME_CLASSES_ANSWER);
    fadzgime_monitor_start(0x6200, state, sizeof state, answer, 4);
    fadzgime_monitor_classes(state, FADZGIME_MONITOR_STATE, classes, FADZGIME_CLASSES_ANSWER);
    show("monitor_classes", classes, FADZGIME_CLASSES_ANSWER);
    for (size_t i = 0; i < sizeof merging / sizeof merging[0]; i++) {
        fadzgime_monitor_step(merging[i], state, sizeof state, answer, 4);
        fadzgime_monitor_classes(state, sizeof state, classes, FADZGIME_CLASSES_ANSWER);
        show("monitor_classes", classes, FADZGIME_CLASSES_ANSWER);
    }

    fadzgime_stream_start(state, sizeof state, answer, 1);
    fadzgime_monitor_unequal(state, sizeof state, unequal, FADZGIME_UNEQUAL_ANSWER);
    show("monitor_unequal", unequal, FADZGIME_UNEQUAL_ANSWER);
    fadzgime_monitor_classes(state, sizeof state, classes, FADZGIME_CLASSES_ANSWER);
    show("monitor_classes", classes, FADZGIME_CLASSES_ANSWER);
    fadzgime_stream_push(trace, 3, state, sizeof state, answer, 1);
    fadzgime_stream_finish(state, sizeof state, answer, 4);
    show("stream", answer, 4);
    fadzgime_stream_push(trace + 3, sizeof trace - 3, state, sizeof state, answer, 1);
    fadzgime_stream_finish(state, sizeof state, answer, 4);
    show("stream", answer, 4);

    fadzgime_monitor(trace, sizeof trace, answer, 4);
    show("monitor", answer, 4);
    fadzgime_monitor(trace, 5, answer, 4);
    show("monitor", answer, 4);

    fadzgime_model(trace, sizeof trace, out, sizeof out, answer, 4);
    show("model", answer, 4);
    show_bytes(out, (size_t)answer[3]);
    longest[0] = 0x82;
    for (size_t i = 1; i <= 1024; i++) {
        longest[2 * i] = 0x40;
    }
    fadzgime_model(longest, sizeof longest, largest, sizeof largest, answer, 4);
    show("model", answer, 4);
    fadzgime_model(longest, sizeof longest, largest, sizeof largest - 1, answer, 4);
    show("model", answer, 4);

    fadzgime_read(text, strlen(macro), answer, 5);
    show("read", answer, 5);
    fadzgime_read(text, 6, answer, 5);
    show("read", answer, 5);
    fadzgime_read(typed, strlen(capitals), answer, 5);
    show("read", answer, 5);
    fadzgime_read((const uint8_t *)repeated, strlen(repeated), answer, 5);
    show("read", answer, 5);

    fadzgime_layout(untidy, strlen(loose), out, sizeof out, answer, 3);
    show("layout", answer, 3);
    fwrite(out, 1, (size_t)answer[2], stdout);
    fadzgime_layout(tidy, strlen(line), out, 8, answer, 3);
    show("layout", answer, 3);
    fwrite(out, 1, (size_t)answer[2], stdout);
    fadzgime_layout(tidy, strlen(line), out, 7, answer, 3);
    show("layout", answer, 3);
    fadzgime_layout((const uint8_t *)unknown, strlen(unknown), out, 0, answer, 3);
    show("layout", answer, 3);

    fadzgime_verdict(text, strlen(macro), table, sizeof table, out, sizeof out, answer, 5);
    show("verdict", answer, 5);
    show_bytes(out, 12);
    fadzgime_verdict(typed, strlen(capitals), table, sizeof table, out, sizeof out, answer, 5);
    show("verdict", answer, 5);
    show_bytes(out, 12);
    fadzgime_verdict(text, strlen(macro), table, sizeof table, out, 11, answer, 5);
    show("verdict", answer, 5);
    fadzgime_verdict(passing, strlen(loop), table, sizeof table, out, 0, answer, 5);
    show("verdict", answer, 5);
    fadzgime_verdict(passing, strlen(loop), table, sizeof table - 1, out, 0, answer, 5);
    show("verdict", answer, 5);

    /* NULL for each slice of length 0, one after the other. */
    fadzgime_monitor(NULL, 0, answer, 4);
    show("monitor", answer, 4);
    fadzgime_write(3, 1, 0, NULL, 0, out, sizeof out, answer, 3);
    show("write", answer, 3);
    fadzgime_write(3, 1, 0, letters, sizeof letters, NULL, 0, answer, 3);
    show("write", answer, 3);
    fadzgime_read_trace(NULL, 0, out, sizeof out, answer, 6);
    show("read_trace", answer, 6);
    fadzgime_read_trace(trace, 2, NULL, 0, answer, 6);
    show("read_trace", answer, 6);
    fadzgime_monitor_start(0x3200, NULL, 0, answer, 4);
    show("monitor_start", answer, 4);
    fadzgime_monitor_step(0x4400, NULL, 0, answer, 4);
    show("monitor_step", answer, 4);
    fadzgime_monitor_unequal(NULL, 0, unequal, FADZGIME_UNEQUAL_ANSWER);
    show("monitor_unequal", unequal, FADZGIME_UNEQUAL_ANSWER);
    fadzgime_monitor_classes(NULL, 0, classes, FADZGIME_CLASSES_ANSWER);
    show("monitor_classes", classes, FADZGIME_CLASSES_ANSWER);
    fadzgime_stream_start(NULL, 0, answer, 1);
    show("stream_start", answer, 1);
    fadzgime_stream_push(trace, sizeof trace, NULL, 0, answer, 1);
    show("stream_push", answer, 1);
    fadzgime_stream_finish(NULL, 0, answer, 4);
    show("stream", answer, 4);
    fadzgime_stream_start(state, sizeof state, answer, 1);
    fadzgime_stream_push(NULL, 0, state, sizeof state, answer, 1);
    fadzgime_stream_finish(state, sizeof state, answer, 4);
    show("stream", answer, 4);
    fadzgime_model(NULL, 0, out, sizeof out, answer, 4);
    show("model", answer, 4);
    fadzgime_model(trace, sizeof trace, NULL, 0, answer, 4);
    show("model", answer, 4);
    fadzgime_read(NULL, 0, answer, 5);
    show("read", answer, 5);
    fadzgime_layout(NULL, 0, out, sizeof out, answer, 3);
    show("layout", answer, 3);
    fadzgime_layout(tidy, strlen(line), NULL, 0, answer, 3);
    show("layout", answer, 3);
    fadzgime_verdict(NULL, 0, table, sizeof table, out, sizeof out, answer, 5);
    show("verdict", answer, 5);
    fadzgime_verdict(text, strlen(macro), NULL, 0, out, sizeof out, answer, 5);
    show("verdict", answer, 5);
    fadzgime_verdict(text, strlen(macro), table, sizeof table, NULL, 0, answer, 5);
    show("verdict", answer, 5);
    fadzgime_verdict(passing, strlen(loop), table, sizeof table, NULL, 0, answer, 5);
    show("verdict", answer, 5);
    /* Nothing is done, and what was answered before stays. */
    fadzgime_monitor(trace, 5, NULL, 0);
    fadzgime_monitor_unequal(state, sizeof state, NULL, 0);
    fadzgime_monitor_classes(state, sizeof state, NULL, 0);
    fadzgime_verdict(text, strlen(macro), table, sizeof table, out, sizeof out, NULL, 0);
    show("verdict", answer, 5);
    return 0;
}
