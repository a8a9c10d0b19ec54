/* The proved calls on trace files and images, for callers in C and C++ on x86-64.
 *
 *     tools/archive
 *     cc -I bindings/c YOUR.c target/staticlib/libconsistency.a
 *
 * crates/consistency/src/lib.rt says what is proved of each call. docs/FORMAT.md has the trace file, its two editions, the image and its
 * order, the replay and the report, and the tables below in their long form: what to do about each code, and an example for each clause.
 *
 * All places that a call is lent stay the caller's, who has them to read (`const`) and to write (the others) for as many elements
 * as the lengths say; they do not overlap, and none is null. A length may be 0, and any bytes may stand in a file. A file is never
 * written, and nothing is touched beyond what a call says that it writes. A call keeps nothing and allocates nothing: threads may
 * call at once, each with places of its own.
 *
 * A call takes no more stack than its CONSISTENCY_..._STACK says, in bytes. That has room for memcpy and memset, and for the loader where it
 * looks these up at their first call; what a signal handler takes is not in it. */
#ifndef CONSISTENCY_H
#define CONSISTENCY_H

#include <stddef.h>
#include <stdint.h>

#ifdef __cplusplus
extern "C" {
#endif

/* The most bytes that a trace file may have; a longer one is code 1, and none is written. */
#define CONSISTENCY_LONGEST_FILE 65536
/* No image is longer; a buffer of this length is never too short. */
#define CONSISTENCY_LONGEST_IMAGE 49536
/* No replay is longer; a buffer of this length is never too short. */
#define CONSISTENCY_LONGEST_REPLAY 65532
/* No report is longer. */
#define CONSISTENCY_LONGEST_REPORT 1272

/* Each call but `open_session` and those that write a report answers a code:
 *
 *     0            it has an answer, in the words that the call says;
 *     19           `judge_image` has the other one of its two answers;
 *     255          there is no room for the words of an answer: nothing was done, and nothing is written;
 *     any other    a refusal, by the table.
 *
 * A refusal is the same for all calls. Its words are written, if the call is lent words, and nothing else:
 *
 *     0       1         2         3         4
 *     code    record    key       version   writer    0 where the code does not name it
 *
 *     code | refused since                                                           | names
 *     -----|-------------------------------------------------------------------------|------------------------------------------------
 *        1 | the file is cut short, too long, or its first field is not its length   | record 0
 *        2 | the header's length, kind, keys or clients are wrong                    | record 0
 *        3 | a record is cut off, or its length is not the one of its kind           | record
 *        4 | a record has a kind that is not in the format                           | record
 *        5 | bytes are left after the records that the header counts                 | the last record
 *        6 | a record has a client that is not in the header                         | record
 *        7 | a spare byte, a set, or an operation's kind, key or order is wrong      | record
 *        8 | there is a 64th commit                                                  | record
 *        9 | a client's session number does not rise                                 | record
 *       10 | a view lacks version 0 or holds a version that does not exist           | record, least key
 *       11 | a view holds some but not all versions of a writer                      | record, least missing key and version
 *       12 | a shift loses a version that the view held                              | record, least key and version
 *       13 | a read's value is not that of the newest version in the view            | record, least key, the version read, its writer
 *       14 | a view changed at a key without an operation                            | record, least key
 *       15 | the image buffer is shorter than the image                              |
 *       16 | SER does not accept the trace, so that it has no replay                 | record, key and version of SER's verdict
 *       17 | a buffer is too short for the file, the pieces that came, or 63 commits |
 *       18 | the session is closed                                                   |
 *       19 | no order of the commits gives the image; a ring is shown                |
 *       20 | the image is misshapen                                                  |
 *       21 | there are fewer rows than commits                                       |
 *       22 | the file that is to be written has more than 65,536 bytes               |
 *
 * A writer is a commit's number, from 1, those without operations counted; 0 is the opening transaction, which wrote version 0 of each key.
 *
 * A call gives these and no others:
 *
 *     call            | codes
 *     ----------------|-------------------------------------
 *     judge_file      | 1 to 14, then 15
 *     plain_file      | 1 to 14
 *     replay_file     | 1 to 14, then 16, then 17
 *     short_file      | 1 to 14, then 22, then 17
 *     long_file       | 1 to 14, then 22, then 17
 *     visibility_file | 1 to 14, then 15, then 21
 *     judge_image     | 20, then 17, then 19
 *     push_piece      | 18
 *     close_session   | 18, then 17, then 1 to 14, then 15
 *
 * More bytes than the longest file has are code 1 before 17. Of several that are due the first is answered, in the order that
 * docs/FORMAT.md gives. */
#define CONSISTENCY_NO_ROOM 255
#define CONSISTENCY_REFUSAL_WORDS 5

/* Judges the trace file in the first `file_length` bytes at `file`.
 *
 * Code 0: the image of its store, which has the view that each commit was judged from, stands at the start of `image`, and
 * CONSISTENCY_JUDGE_WORDS words are written:
 *
 *     0       1         2         3
 *     0       records   commits   length of the image
 *     then four for each level, from its place on:
 *     clause  record    key       version      of the first failure, or four zeros where the level accepts
 *
 * A refusal writes no byte of `image`. */
uint64_t judge_file(const uint8_t *file, size_t file_length,
                    uint8_t *image, size_t image_length,
                    uint64_t *words, size_t words_length);

#define CONSISTENCY_JUDGE_WORDS 44
#define CONSISTENCY_JUDGE_STACK 98304

/* Where the four words of each level begin. A level fails at the first commit that fails one of its clauses, by the lowest of these:
 *
 *     level | name                        | clauses
 *     ------|-----------------------------|----------
 *     MR    | monotonic reads             | 1
 *     MW    | monotonic writes            | 3
 *     RYW   | read your writes            | 2
 *     WFR   | write follows reads         | 4
 *     CC    | causal consistency          | 1 2 3 4
 *     UA    | update atomic               | 5
 *     PSI   | parallel snapshot isolation | 1 2 3 4 5
 *     CP    | consistent prefix           | 1 2 6
 *     SI    | snapshot isolation          | 1 2 5 7
 *     SER   | serialisability             | 8
 *
 * A clause wants versions in a view of the commit's client, 1 and 2 in the view after the commit and the others in the view before it;
 * key and version name the least that is not there. t is any commit of which the view before holds a version. SO, WR, WW and RW are
 * the links between commits that docs/FORMAT.md describes; SO;RW? is SO, or SO and then RW.
 *
 *     clause | wants
 *     -------|-----------------------------------------------------------------------------------------------
 *          1 | all that the view before holds
 *          2 | all versions by the commit and by those before it in its session, if the commit has operations
 *          3 | all versions by the commits before t in its session
 *          4 | each version that t, or a commit before t in its session, read
 *          5 | every version of each key that the commit writes
 *          6 | all versions by the commits that lead to t by one or more of SO;RW?, WR;RW? and WW
 *          7 | all versions by the commits that lead to t by one or more of SO;RW?, WR;RW? and WW;RW?
 *          8 | every version of every key */
enum {
    CONSISTENCY_MR = 4,
    CONSISTENCY_MW = 8,
    CONSISTENCY_RYW = 12,
    CONSISTENCY_WFR = 16,
    CONSISTENCY_CC = 20,
    CONSISTENCY_UA = 24,
    CONSISTENCY_PSI = 28,
    CONSISTENCY_CP = 32,
    CONSISTENCY_SI = 36,
    CONSISTENCY_SER = 40
};

/* Judges the trace file as `judge_file` does, by a second engine that tries every commit as the next link: the same words for every file, where the
 * image buffer of `judge_file` is long enough. No image is written, though its length is told. It is slow, and made for the acceptance trial: what the
 * one says of a file, the other must say too. */
uint64_t plain_file(const uint8_t *file, size_t file_length,
                    uint64_t *words, size_t words_length);

#define CONSISTENCY_PLAIN_STACK 114688

/* Writes the replay of the trace in the first `file_length` bytes at `file`, if SER accepts the trace: a trace file with the same commits,
 * each after a shift of its client to all that there is, and left with a view of all that there is then. `judge_file` gives the replay the
 * image of the trace and ten accepted verdicts.
 *
 * Code 0: the replay stands at the start of `buffer`, and two words are written:
 *
 *     0       1
 *     0       length of the replay
 *
 * A refusal writes no byte of `buffer`. Where `words` has less than CONSISTENCY_REPLAY_WORDS, the code is 255. */
uint64_t replay_file(const uint8_t *file, size_t file_length,
                     uint8_t *buffer, size_t buffer_length,
                     uint64_t *words, size_t words_length);

#define CONSISTENCY_REPLAY_WORDS 5
#define CONSISTENCY_REPLAY_STACK 98304

/* Write the trace in the first `file_length` bytes at `file` in its short edition, where each shift has masks for the keys that change alone and
 * each commit has masks for the keys that have an operation; or in its long edition, where each record has masks for all keys. `judge_file` gives
 * the written file the answer and the image that it gives the one that was read. No buffer need be longer than CONSISTENCY_LONGEST_FILE.
 *
 * Code 0: the file stands at the start of `buffer`, and two words are written:
 *
 *     0       1
 *     0       length of the file
 *
 * A refusal writes no byte of `buffer`. Where `words` has less than CONSISTENCY_CONVERSION_WORDS, the code is 255. */
uint64_t short_file(const uint8_t *file, size_t file_length,
                    uint8_t *buffer, size_t buffer_length,
                    uint64_t *words, size_t words_length);

uint64_t long_file(const uint8_t *file, size_t file_length,
                   uint8_t *buffer, size_t buffer_length,
                   uint64_t *words, size_t words_length);

#define CONSISTENCY_CONVERSION_WORDS 5
#define CONSISTENCY_CONVERSION_STACK 98304

/* Judges the trace file as `judge_file` does and writes the report, text with a line feed at the end of each line and no 0 byte, at the
 * start of `text`. Answers the length of the report. Where `text` has less than CONSISTENCY_LONGEST_REPORT bytes nothing is judged or
 * written, and the answer is 0. */
size_t report_file(const uint8_t *file, size_t file_length,
                   uint8_t *image, size_t image_length,
                   uint8_t *text, size_t text_length);

#define CONSISTENCY_REPORT_STACK 98304

/* Judges the image in the first `image_length` bytes at `image`, whose trace need not be there: is there an order of its commits, each made
 * from a view of everything, that gives these versions, writers and readers, with each client's session numbers in order? The views in
 * the image are not looked at.
 *
 * Code 0: there is. The order stands at the start of `shown`, one byte a commit: each time the lowest-numbered commit that no other
 * which is left has a link to. Code 19: there is none. A ring of SO, WR, WW or RW links stands there, in the order of its links and without
 * a commit twice; a commit that read its own version is one. Two words are written:
 *
 *     0       1
 *     code    how many commits are shown
 *
 * The bytes of `shown` behind these are as they were. Codes 17 and 20 write no byte of `shown`. Where `words` has less than
 * CONSISTENCY_IMAGE_WORDS, the code is 255. */
uint64_t judge_image(const uint8_t *image, size_t image_length,
                     uint8_t *shown, size_t shown_length,
                     uint64_t *words, size_t words_length);

/* No image has more commits; a shorter `shown` is code 17. */
#define CONSISTENCY_MOST_COMMITS 63
#define CONSISTENCY_IMAGE_WORDS 5
#define CONSISTENCY_IMAGE_STACK 8192

/* Judges the trace file in the first `file_length` bytes at `file` as `judge_file` does, with the same code, words and image, and says which commit is
 * visible to which: the later one's view held a version that the earlier wrote.
 *
 * Code 0: row 0 of `rows` is that of commit 1, row 1 that of commit 2, and so on; bit c of a row is set exactly if commit c is visible to it, and bit
 * 0 never is. The rows behind these are as they were. Code 21, after every refusal of `judge_file`: `rows` has fewer rows than there are commits;
 * CONSISTENCY_MOST_COMMITS are never too few. The image is then left as with code 0. Any refusal writes no row. Where `words` has less than
 * CONSISTENCY_JUDGE_WORDS, the code is 255. */
uint64_t visibility_file(const uint8_t *file, size_t file_length,
                         uint8_t *image, size_t image_length,
                         uint64_t *rows, size_t rows_length,
                         uint64_t *words, size_t words_length);

#define CONSISTENCY_VISIBILITY_STACK 98304

/* A trace file that comes in pieces, of any size and cut anywhere, empty ones too. The record stays with the caller, and each call changes it
 * in place; the bytes are kept in a second place, `kept`, which is to have CONSISTENCY_LONGEST_FILE bytes and is lent with each call, the same
 * one each time and not changed in between.
 *
 *     struct consistency_session session;
 *     open_session(&session);
 *     push_piece(&session, kept, sizeof kept, piece, piece_length);        for each piece
 *     close_session(&session, kept, sizeof kept, image, sizeof image, words, CONSISTENCY_JUDGE_WORDS);
 *
 * A record that was opened and then changed by pieces alone is judged at its close as `judge_file` judges the joined bytes. Any two words
 * are a record, and get an answer from every call. */
struct consistency_session {
    uint64_t total;  /* how many bytes have come; CONSISTENCY_LONGEST_FILE + 1 for all numbers above CONSISTENCY_LONGEST_FILE */
    uint64_t closed; /* 0 where it is open, any other number where it is closed */
};

/* Makes the record a new one, whatever it was: open, and nothing has come. */
void open_session(struct consistency_session *session);

/* Takes the next bytes, and answers 0; where the session is closed, answers 18 and changes nothing. It takes as long as a copy
 * of the piece, however much is kept.
 *
 * What comes after CONSISTENCY_LONGEST_FILE bytes is counted and not kept, and what does not fit into a shorter `kept` is not kept either; no
 * byte of `kept` behind the first CONSISTENCY_LONGEST_FILE is ever written. */
uint64_t push_piece(struct consistency_session *session,
                    uint8_t *kept, size_t kept_length,
                    const uint8_t *piece, size_t piece_length);

/* Judges what has come and closes the session, whatever the answer: code, words and image are those of `judge_file`. Code 18, where it was
 * closed before, changes neither session nor image; code 17 is that of a `kept` with fewer bytes than have come. Where `words` has less than
 * CONSISTENCY_JUDGE_WORDS, the code is 255, and the session is as it was. */
uint64_t close_session(struct consistency_session *session,
                       const uint8_t *kept, size_t kept_length,
                       uint8_t *image, size_t image_length,
                       uint64_t *words, size_t words_length);

/* The same with the report of `report_file` in place of the words. Where `text` has less than CONSISTENCY_LONGEST_REPORT bytes nothing is
 * done, the session is as it was, and the answer is 0. */
size_t report_session(struct consistency_session *session,
                      const uint8_t *kept, size_t kept_length,
                      uint8_t *image, size_t image_length,
                      uint8_t *text, size_t text_length);

/* For `open_session` and `push_piece`, and for `close_session` and `report_session`. */
#define CONSISTENCY_PUSH_STACK 4096
#define CONSISTENCY_CLOSE_STACK 98304

#ifdef __cplusplus
}
#endif

#endif
