/* The proved book for C. The bytes of a journal go in, with a snapshot before it or not; its listing, its offers, its figures,
 * answers to questions or a snapshot come out in a lent buffer.
 *
 * Every function answers on every input. At least 0: how many bytes, offers, numbers or answers were written. Below 0: minus
 * the number of a refusal, and the buffer is as it was:
 *    3  a list that is none, or an unlisted status
 *   13  the journal, the text or the snapshot is malformed, or a line is no question
 *   14  the buffer is too short
 *   15  the snapshot is of no sound book
 * Room past an answer is untouched. Nothing is kept between calls. Give a thread that calls it 1 MiB of stack or more: a
 * replay was measured to take between 448 and 480 KiB on Arm, and no proof bounds it.
 *
 * A slice is a pointer and a count of its elements. The pointer must not be null, even where the count is 0. */
#ifndef SOLGAVERNA_H
#define SOLGAVERNA_H

#include <stddef.h>
#include <stdint.h>

/* The listing that a replay of the journal prints; a malformed record is said there and is no refusal. */
int64_t solgaverna_listing(const uint8_t *journal, size_t journal_len, uint8_t *out, size_t out_len);

/* The journal of a text, one command a line, and the text of a journal (docs/JOURNALS.md). */
int64_t solgaverna_journal(const uint8_t *text, size_t text_len, uint8_t *out, size_t out_len);
int64_t solgaverna_text(const uint8_t *journal, size_t journal_len, uint8_t *out, size_t out_len);

/* The number, from 1, of the first line of a text that is no command; 0 if there is none. */
uint64_t solgaverna_faulty_line(const uint8_t *text, size_t text_len);

/* Offers after the journal, ids ascending, ten numbers each: id, invoice, lender, amount, rate, duration, expires, status,
 * funded, repaid (amounts in two's complement). The answer is how many offers there are. */
enum {
    SOLGAVERNA_BY_INVOICE = 1,         /* a: invoice */
    SOLGAVERNA_BY_LENDER = 2,          /* a: account */
    SOLGAVERNA_BY_STATUS = 3,          /* a: status */
    SOLGAVERNA_PENDING_BY_INVOICE = 4, /* a: invoice */
    SOLGAVERNA_ALL = 5,
    SOLGAVERNA_PAGE = 6                /* a: how many to pass over, b: how many at most */
};
int64_t solgaverna_offers(const uint8_t *journal, size_t journal_len, uint64_t list, uint64_t a, uint64_t b,
                          uint64_t *out, size_t out_len);

/* Four numbers after the journal. A lender's: offered total, accepted total, offers pending, offers repaid.
 * The book's totals: offers, financed, repaid, fees. */
int64_t solgaverna_lender(const uint8_t *journal, size_t journal_len, uint64_t account, uint64_t *out, size_t out_len);
int64_t solgaverna_totals(const uint8_t *journal, size_t journal_len, uint64_t *out, size_t out_len);

/* The answers to questions about the book after the journal, one a line (`./run ask --help` lists them). */
int64_t solgaverna_ask(const uint8_t *journal, size_t journal_len, const uint8_t *questions, size_t questions_len,
                       uint8_t *out, size_t out_len);

/* The number, from 1, of the first line that is no question, whatever the book; 0 if there is none. */
uint64_t solgaverna_faulty_question(const uint8_t *questions, size_t questions_len);

/* Lookups after the journal, three numbers each: a code, an id and a time (any number where it asks about none). An answer
 * is twelve numbers: 0 or the number of a refusal, how many values there are, and ten places for them, zeros after the last;
 * values stand in the order of `solgaverna_ask`. A code that is none gives 3, an absent offer 4. What comes back is how many
 * lookups there are; one or two numbers at the end are none. */
enum {
    SOLGAVERNA_LOOKUP_OFFER = 1,
    SOLGAVERNA_LOOKUP_ACCOUNT = 2,
    SOLGAVERNA_LOOKUP_LENDER = 3,
    SOLGAVERNA_LOOKUP_SCHEDULE = 4,           /* of an offer, its kind last; no values where it has none */
    SOLGAVERNA_LOOKUP_DEADLINE = 5,           /* of an offer's negotiation */
    SOLGAVERNA_LOOKUP_NEGOTIATION_STATUS = 6, /* of an offer, at a time */
    SOLGAVERNA_LOOKUP_DUE = 7,                /* of an offer, at a time */
    SOLGAVERNA_LOOKUP_COUNT = 8,
    SOLGAVERNA_LOOKUP_WINDOW = 9,
    SOLGAVERNA_LOOKUP_SEATS = 10,
    SOLGAVERNA_LOOKUP_THRESHOLD = 11,
    SOLGAVERNA_LOOKUP_PAUSED = 12,
    SOLGAVERNA_LOOKUP_TOTALS = 13
};
int64_t solgaverna_answers(const uint8_t *journal, size_t journal_len, const uint64_t *questions, size_t questions_len,
                           uint64_t *out, size_t out_len);

/* The snapshot of the book after the journal: the whole book in bytes (docs/SNAPSHOT.md), 79,002 of them at most. */
int64_t solgaverna_snapshot(const uint8_t *journal, size_t journal_len, uint8_t *out, size_t out_len);

/* A journal that goes on from the book of a snapshot. It must be of the edition that the snapshot names; one from before there was
 * a field for it names none and is read as edition 3. First the snapshot is refused (13 or 15), then the journal (13), then the
 * buffer (14). What comes out is the snapshot of the book after it, the listing, where a bad header, another edition's or a
 * malformed record is said and is no refusal, or the answers to questions, as of `solgaverna_ask`. After a journal without commands
 * the snapshot is `from` again, byte for byte, with the edition's field before it where it had none. */
int64_t solgaverna_snapshot_from(const uint8_t *from, size_t from_len, const uint8_t *journal, size_t journal_len,
                                 uint8_t *out, size_t out_len);
int64_t solgaverna_listing_from(const uint8_t *from, size_t from_len, const uint8_t *journal, size_t journal_len,
                                uint8_t *out, size_t out_len);
int64_t solgaverna_ask_from(const uint8_t *from, size_t from_len, const uint8_t *journal, size_t journal_len,
                            const uint8_t *questions, size_t questions_len, uint8_t *out, size_t out_len);

/* Where a snapshot is malformed: the offset of its first wrong field, UINT64_MAX where it is not. */
uint64_t solgaverna_faulty_snapshot(const uint8_t *from, size_t from_len);

#endif
