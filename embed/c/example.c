/* The session of the README from its text: a journal, its listing, the lender's figures and the offer, and questions. Then the
 * session in edition 3, in two parts with a snapshot between them. */
#include <stdio.h>
#include <string.h>

#include "solgaverna.h"

#define MORNING                               \
    "open-account 100 1\n"                    \
    "open-account 100 2\n"                    \
    "deposit 100 1 5000\n"                    \
    "approve 100 1 5000\n"                    \
    "register 100 2 10 2000\n"                \
    "create 100 1 20 10 1000 500 86400 0\n"   \
    "counter 100 2 20 900 500 86400 0\n"
#define AFTERNOON                        \
    "amend 100 1 20 900 500 86400 0\n"   \
    "amend 100 1 20 900 500 86400 1\n"   \
    "accept 100 2 20\n"

static const char session[] = MORNING AFTERNOON;
static const char morning[] = "edition 3\n" MORNING;
static const char afternoon[] = "edition 3\n" AFTERNOON;
static const char nothing[] = "edition 3\n";

static const char questions[] =
    "offer 20\n"
    "negotiation 20\n"
    "schedule 20\n"
    "active 1\n"
    "offer 21\n";

static const uint64_t lookups[] = {
    SOLGAVERNA_LOOKUP_ACCOUNT, 2, 0,
    SOLGAVERNA_LOOKUP_DEADLINE, 20, 0,
    SOLGAVERNA_LOOKUP_NEGOTIATION_STATUS, 20, 100,
    SOLGAVERNA_LOOKUP_OFFER, 21, 0,
};

static const char misspelt[] =
    "count\n"
    "ofer 20\n";

/* How many bytes of text the questions' answers are. */
static int64_t ask(const uint8_t *journal, size_t size, const char *asked, uint8_t *out, size_t room) {
    return solgaverna_ask(journal, size, (const uint8_t *)asked, strlen(asked), out, room);
}

/* Asks in text, and by lookups, whose answers are printed as lines: 0 or a refusal, and the values. */
static int print_answers(const uint8_t *journal, size_t size) {
    static uint8_t text[1024];
    uint64_t words[48];
    int64_t written = ask(journal, size, questions, text, sizeof text);
    if (written < 0 || ask(journal, size, misspelt, text, sizeof text) != -13 ||
        solgaverna_answers(journal, size, lookups, 12, words, 48) != 4) {
        fprintf(stderr, "refused\n");
        return 1;
    }
    fwrite(text, 1, written, stdout);
    for (const uint64_t *answer = words; answer < words + 48; answer += 12) {
        printf("%llu", (unsigned long long)answer[0]);
        for (uint64_t i = 0; i < answer[1]; i++)
            printf(" %llu", (unsigned long long)answer[2 + i]);
        printf("\n");
    }
    printf("line %llu is no question\n",
           (unsigned long long)solgaverna_faulty_question((const uint8_t *)misspelt, strlen(misspelt)));
    return 0;
}

/* The session in two parts: a snapshot after the first, the rest from it, and the snapshot after that, which reads back. */
static int print_parts(void) {
    static uint8_t journal[4096], first[1024], last[1024], again[1024], text[4096];
    int64_t size = solgaverna_journal((const uint8_t *)morning, strlen(morning), journal, sizeof journal);
    int64_t kept = size < 0 ? size : solgaverna_snapshot(journal, size, first, sizeof first);
    size = solgaverna_journal((const uint8_t *)afternoon, strlen(afternoon), journal, sizeof journal);
    if (kept < 0 || size < 0) {
        fprintf(stderr, "refused\n");
        return 1;
    }
    printf("snapshot of %lld bytes\n", (long long)kept);
    int64_t written = solgaverna_listing_from(first, kept, journal, size, text, sizeof text);
    fwrite(text, 1, written < 0 ? 0 : written, stdout);
    written = solgaverna_ask_from(first, kept, journal, size, (const uint8_t *)questions, strlen(questions), text, sizeof text);
    fwrite(text, 1, written < 0 ? 0 : written, stdout);
    written = solgaverna_snapshot_from(first, kept, journal, size, last, sizeof last);
    printf("snapshot of %lld bytes\n", (long long)written);
    size = solgaverna_journal((const uint8_t *)nothing, strlen(nothing), journal, sizeof journal);
    if (written < 0 || size < 0 || solgaverna_snapshot_from(last, written, journal, size, again, sizeof again) != written ||
        memcmp(last, again, written) != 0) {
        fprintf(stderr, "not read back\n");
        return 1;
    }
    if (solgaverna_snapshot_from(first, kept - 1, journal, size, last, sizeof last) != -13 ||
        solgaverna_faulty_snapshot(first, kept) != UINT64_MAX) {
        fprintf(stderr, "not told\n");
        return 1;
    }
    printf("field %llu is cut\n", (unsigned long long)solgaverna_faulty_snapshot(first, kept - 1));
    return 0;
}

int main(void) {
    static uint8_t journal[4096], listing[4096];
    uint64_t figures[4], offer[10];
    int64_t size = solgaverna_journal((const uint8_t *)session, strlen(session), journal, sizeof journal);
    if (size < 0) {
        fprintf(stderr, "line %llu is no command\n",
                (unsigned long long)solgaverna_faulty_line((const uint8_t *)session, strlen(session)));
        return 1;
    }
    int64_t written = solgaverna_listing(journal, size, listing, sizeof listing);
    if (written < 0 || solgaverna_lender(journal, size, 1, figures, 4) != 4 ||
        solgaverna_offers(journal, size, SOLGAVERNA_BY_LENDER, 1, 0, offer, 10) != 1) {
        fprintf(stderr, "refused\n");
        return 1;
    }
    fwrite(listing, 1, written, stdout);
    printf("lender 1 offered %llu accepted %llu\n", (unsigned long long)figures[0], (unsigned long long)figures[1]);
    printf("offer %llu amount %llu status %llu\n", (unsigned long long)offer[0], (unsigned long long)offer[3],
           (unsigned long long)offer[7]);
    return print_answers(journal, size) || print_parts();
}
