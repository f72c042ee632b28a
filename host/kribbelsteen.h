/* Kribbelsteen: a verified reader of Radiance scene texts, mixtures resolved, the order of two primitives judged, two saves compared, two
 * hands' edits joined, scenes written out, their glass moved, scenes sorted, ray hits, Fresnel values and panes of glass.
 *
 * Link with libkribbelsteen.a. The functions keep nothing between calls, allocate nothing and may be called by several threads
 * at once, each on memory of its own.
 *
 * Every pointer leads to as many elements as its length or its array type says, is aligned for them and is not NULL, also where
 * the length is 0. What a call writes overlaps nothing else that it is given. Beyond that every input is allowed: whatever the
 * bytes and numbers are, a call ends and answers as written here, and it always writes the whole of its `answer` or `line`.
 *
 * A table that "may hold anything" need not come from a reading: its entries may be any numbers, NaN and infinities among the
 * reals. What a call uses of it is tested first, nothing outside the lent memory is touched, and the call says what it makes of it.
 *
 * Places are counted in bytes from the text's start, from 0. Primitives are numbered from 1, and 0 stands for none. */
#ifndef KRIBBELSTEEN_H
#define KRIBBELSTEEN_H

#include <stddef.h>
#include <stdint.h>

#ifdef __cplusplus
extern "C" {
#endif

/* How a text is read. New scenes may have no antimatter; the archive reading, for old ones, accepts it. Every text that the new
 * reading accepts has the same answer and the same tables in the archive one. A mode is given by its number, and any number but 1 is
 * the new reading. */
enum kribbelsteen_mode { KRIBBELSTEEN_NEW = 0, KRIBBELSTEEN_ARCHIVE = 1 };

/* Limits of a scene: bytes of a text, bytes of a word, primitives, reals. */
#define KRIBBELSTEEN_MOST_BYTES 65536
#define KRIBBELSTEEN_LONGEST_WORD 64
#define KRIBBELSTEEN_MOST_PRIMITIVES 1024
#define KRIBBELSTEEN_MOST_REALS 4096

/* Entries that an index of names has to have. */
#define KRIBBELSTEEN_INDEX 2048

/* Numbers in a record, and where each stands in it. Record n begins at entry KRIBBELSTEEN_RECORD * (n - 1). */
#define KRIBBELSTEEN_RECORD 11
enum kribbelsteen_field {
    KRIBBELSTEEN_TYPE = 0,         /* 1 source to 9 ring: surfaces; 10 light to 24 antimatter: materials; 25 mixfunc */
    KRIBBELSTEEN_MODIFIER = 1,     /* the primitive that the modifier leads to, 0 for `void` */
    KRIBBELSTEEN_ALIAS = 2,        /* the primitive that an alias leads to, 0 if this is no alias */
    KRIBBELSTEEN_NAME = 3,         /* place of the name */
    KRIBBELSTEEN_NAME_LENGTH = 4,  /* bytes of the name */
    KRIBBELSTEEN_STRING = 5,       /* place of the first string, 0 if there is none */
    KRIBBELSTEEN_STRINGS = 6,      /* how many strings */
    KRIBBELSTEEN_REAL = 7,         /* index of the first real in the table of reals, 0 also if there is none */
    KRIBBELSTEEN_REALS = 8,        /* how many reals */
    KRIBBELSTEEN_NEXT = 9,         /* the next primitive of the same name, surfaces left out; 0 if there is none, and for a surface */
    KRIBBELSTEEN_LINE = 10         /* the line on which the name stands, from 1 */
};

/* Numbers in a pair, and where each stands in it. The pair of primitive n begins at entry KRIBBELSTEEN_PAIR * (n - 1). */
#define KRIBBELSTEEN_PAIR 2
enum kribbelsteen_pair_field {
    KRIBBELSTEEN_FOREGROUND = 0,   /* the primitive that a mixfunc's first string leads to, 0 for `void` */
    KRIBBELSTEEN_BACKGROUND = 1    /* and its second string */
};

/* Why something is refused. */
enum kribbelsteen_reason {
    KRIBBELSTEEN_ACCEPTED = 0,
    /* kribbelsteen_read, _read_indexed, _read_both, _write, _move_glass, _sort, _join and _check_join; in brackets the place that is
     * answered */
    KRIBBELSTEEN_TEXT_TOO_LONG = 1,     /* text over 65,536 bytes (0) */
    KRIBBELSTEEN_BAD_BYTE = 2,          /* a word with a byte outside 33 to 126 (the word) */
    KRIBBELSTEEN_WORD_TOO_LONG = 3,     /* a word over 64 bytes (the word) */
    KRIBBELSTEEN_COMMAND = 4,           /* a command (its `!`) */
    KRIBBELSTEEN_TEXT_ENDS = 5,         /* the text ends inside a statement (text length) */
    KRIBBELSTEEN_NO_RECORD_ROOM = 6,    /* no room for a record (its modifier) */
    KRIBBELSTEEN_NO_MODIFIER = 7,       /* modifier not defined above (modifier) */
    KRIBBELSTEEN_UNKNOWN_TYPE = 8,      /* unknown type (type) */
    KRIBBELSTEEN_NAME_IS_VOID = 9,      /* the name is `void` (name) */
    KRIBBELSTEEN_NO_TARGET = 10,        /* alias target not defined above (target) */
    KRIBBELSTEEN_BAD_COUNT = 12,        /* count badly formed or not allowed (count) */
    KRIBBELSTEEN_NO_REAL_ROOM = 13,     /* no room for the reals (real count) */
    KRIBBELSTEEN_BAD_NUMERAL = 14,      /* breaks the numeral rule (numeral) */
    KRIBBELSTEEN_NUMERAL_RANGE = 15,    /* coefficient or power too large (numeral) */
    KRIBBELSTEEN_HOUSE_RULE = 16,       /* breaks a house rule (the real that completes the breach) */
    KRIBBELSTEEN_INDEX_TOO_SMALL = 24,  /* kribbelsteen_read_indexed: the index has under 2,048 entries (0) */
    KRIBBELSTEEN_SIDE_NOT_DEFINED = 25, /* foreground or background of a mixfunc not defined anywhere (the first such word) */
    KRIBBELSTEEN_LOOP = 26,             /* modifiers and sides lead in a loop (name of the lowest primitive on any loop) */
    KRIBBELSTEEN_PAIRS_TOO_SMALL = 27,  /* kribbelsteen_read and _read_indexed: under two pair entries per record of room (0) */
    KRIBBELSTEEN_RETIRED_TYPE = 28,     /* antimatter, in the new reading (type) */
    /* questions to a table: kribbelsteen_name, _finish, _shown, _mattered and _polygon_in_table */
    KRIBBELSTEEN_NO_SUCH_PRIMITIVE = 17,
    KRIBBELSTEEN_BAD_TABLE = 18,
    KRIBBELSTEEN_ALLOWANCE = 19,
    /* hits, kribbelsteen_fresnel, _pane_factors and _transmissivity */
    KRIBBELSTEEN_NOT_FINITE = 20,
    KRIBBELSTEEN_OUT_OF_RANGE = 21,
    /* kribbelsteen_write, _move_glass and _sort */
    KRIBBELSTEEN_TABLES_DIFFER = 22,    /* the tables are not those of the text (0) */
    KRIBBELSTEEN_OUTPUT_TOO_SMALL = 23, /* the output is too small for the text (0), also kribbelsteen_join's and _check_join's;
                                         * kribbelsteen_shown: the list is too short */
    /* kribbelsteen_join and _check_join */
    KRIBBELSTEEN_NAME_TWICE = 29,        /* a name stands twice in one of the three texts (0) */
    KRIBBELSTEEN_BOTH_CHANGED = 30,      /* both hands changed one name differently (0) */
    KRIBBELSTEEN_NO_ORDER = 31,          /* no order puts each definition after those it needs (0) */
    KRIBBELSTEEN_OTHER_DEFINITIONS = 32, /* kribbelsteen_check_join: the typed text does not hold exactly these definitions (0) */
    /* kribbelsteen_sort */
    KRIBBELSTEEN_LAST_LINE_NOT_ENDED = 33, /* the text's last byte is not 10 (text length) */
    KRIBBELSTEEN_TWO_ON_A_LINE = 34        /* a line has words of two statements (first word of the second) */
};

/* Where glass is moved to: forth to four reals, back to three. A direction is given by its number, and any number but 1 is forth. */
enum kribbelsteen_direction { KRIBBELSTEEN_FORTH = 0, KRIBBELSTEEN_BACK = 1 };

/* Which of two saves. */
enum kribbelsteen_side { KRIBBELSTEEN_LEFT = 0, KRIBBELSTEEN_RIGHT = 1 };

/* Which text of a join a refusal names: none, the base, the left hand's, the right hand's, or the joined or typed one. */
enum kribbelsteen_join_text {
    KRIBBELSTEEN_NO_TEXT = 0,
    KRIBBELSTEEN_BASE_TEXT = 1,
    KRIBBELSTEEN_LEFT_TEXT = 2,
    KRIBBELSTEEN_RIGHT_TEXT = 3,
    KRIBBELSTEEN_JOINED_TEXT = 4
};

/* How a key of a line stands: only one save has it, or both have it and it is not the same. */
enum kribbelsteen_state { KRIBBELSTEEN_ONLY_LEFT = 1, KRIBBELSTEEN_ONLY_RIGHT = 2, KRIBBELSTEEN_CHANGED = 3 };

/* The other answers of kribbelsteen_mattered (1: the order is held), of the hit routines (1: the ray misses) and of Fresnel (1: total
 * reflection). */
#define KRIBBELSTEEN_HELD 1
#define KRIBBELSTEEN_MISS 1
#define KRIBBELSTEEN_TOTAL_REFLECTION 1

/* Reads a scene text, in a mode, into three tables. Take this call where no more memory is to be lent, else
 * kribbelsteen_read_indexed.
 *
 * There is room for the lesser of 1,024 and records_len / 11 records, and for the lesser of 4,096 and reals_len reals. The pairs are
 * to have two entries for each record of room.
 * A mixfunc's first two strings name its foreground and its background: each leads to the last primitive of that name in the whole
 * text, surfaces left out, also below the mixfunc, and `void` to 0. An alias of a mixfunc has the same pair, and all other primitives
 * have 0 and 0. There is a loop where a primitive leads back to itself over modifiers and sides. It is looked for from each mixture, so
 * that the time of mixtures in a chain grows with the square of their number; and such a chain takes up to about 190 KB of stack.
 * Returns 0 if the scene is accepted, else the reason, 1 to 16 or 25 to 28: 1 before all others, then 27; then, but for 25 and 26, the
 * earliest place decides, and at one place the lowest number; 25 only where there is none of these, and 26 only where there is no 25.
 * answer: place of the refusal, number of primitives, number of reals. An accepted scene has place 0, a refused one both
 * numbers 0.
 * Writes all three tables whole, whatever they held: after acceptance all entries beyond those used are 0, and after a refusal all
 * entries are 0. The text is not written. */
uint32_t kribbelsteen_read(uint32_t mode, const uint8_t *text, size_t text_len, uint32_t *records, size_t records_len,
                           double *reals, size_t reals_len, uint32_t *pairs, size_t pairs_len, size_t answer[3]);

/* Reads a scene text as kribbelsteen_read does, with a lent index of names. Take this call wherever 8 KiB can be lent for the index:
 * it is as fast up to about a hundred primitives and faster beyond, as with usual names its time does not grow with the square of
 * their number.
 *
 * An index of KRIBBELSTEEN_INDEX entries is enough, and no more of a longer one are used. With as many, reason, place, both numbers
 * and all three tables are those of kribbelsteen_read, for every text. A name's hash starts at 0 and with each byte becomes 31 times
 * itself plus the byte, modulo 2,048. A search goes from that entry on, and from the last of the 2,048 to the first, until an entry is 0 or
 * holds the number of a primitive of that name. There is one for each modifier but `void`, one for each alias target, and one for each
 * primitive that is no surface, whose number is written where it ends. The searches for sides of mixtures, when all is read, are not
 * counted. Names made to collide cost more looks, so that the call may take longer than kribbelsteen_read, but never change the answer.
 * Returns 0 if the scene is accepted, else the reason, 1 to 16 or 24 to 28: 24 after 1 and before all others, else as
 * kribbelsteen_read does.
 * answer: place of the refusal, number of primitives, number of reals, and how many entries of the index were looked at, the last of
 * each search included. An accepted scene has place 0, a refused one all three numbers 0.
 * Writes all four tables whole, whatever they held: after acceptance all entries of the index from KRIBBELSTEEN_INDEX on are 0, and
 * after a refusal all entries of all tables are 0, whatever the lengths. The text is not written. */
uint32_t kribbelsteen_read_indexed(uint32_t mode, const uint8_t *text, size_t text_len, uint32_t *records, size_t records_len,
                                   double *reals, size_t reals_len, uint32_t *pairs, size_t pairs_len, uint32_t *index,
                                   size_t index_len, size_t answer[4]);

/* The name of a primitive, in a table of `count` records that may hold anything.
 *
 * Returns 0, or refuses: 18 if count is over 1,024 or more than the table holds, then 17 if number is 0 or above count, then 18
 * if the name has length 0 or lies outside the text.
 * answer: place and length of the name in the text; 0 and 0 on a refusal. Nothing else is written. */
uint32_t kribbelsteen_name(const uint8_t *text, size_t text_len, const uint32_t *records, size_t records_len, size_t count,
                           size_t number, size_t answer[2]);

/* The finish of a primitive: the first material that its modifier links lead to, in a table of `count` records that may hold
 * anything. The primitive's own type does not matter; a mixfunc on the way is passed through. At most `allowance`
 * links are followed; one less than the number is enough for every primitive.
 *
 * Returns 0, or refuses: 18 and 17 as kribbelsteen_name does for count and number; on the way 18 for a link that is not below its
 * own primitive, 19 if another link is needed and the allowance is used up, 18 for a reached type outside 10 to 25, such as a surface's.
 * answer: the material's number, 0 if there is none, and how many links were followed. A refusal has number 0, and the links are
 * the allowance for 19, else 0. Nothing else is written. */
uint32_t kribbelsteen_finish(const uint32_t *records, size_t records_len, size_t count, size_t number, size_t allowance,
                             size_t answer[2]);

/* Every material that a primitive may show, in tables of `count` records and pairs that may hold anything: those that modifiers and both
 * sides of mixtures lead to. The way stops at each material that it comes to, and goes on from a mixfunc over both sides and the
 * modifier. The primitive itself is not listed, whatever its type. A list of `count` entries is enough. Each call looks for loops as a
 * reading does, and takes as much stack.
 *
 * Returns 0, or refuses: 18 if count is over 1,024 or more than either table holds, then 17 if number is 0 or above count; then 18
 * if any primitive up to count has a type outside 1 to 25, a modifier that is not below it, a side above count, a side at all where it
 * is no mixfunc, or a link to a surface, or if there is a loop; then 23 if there are more materials than the list has entries.
 * answer: how many materials are listed; 0 on a refusal.
 * Writes the list whole, whatever it held: the numbers of the materials, each once, the smallest first, and 0 behind them; all 0 on a
 * refusal. The tables are not written. */
uint32_t kribbelsteen_shown(const uint32_t *records, size_t records_len, const uint32_t *pairs, size_t pairs_len, size_t count,
                            size_t number, uint32_t *list, size_t list_len, size_t answer[1]);

/* Whether the order of two primitives mattered, in a table of `count` records that may hold anything. The numbers may be given in either
 * order; the upper primitive is the one of the lower number.
 *
 * A primitive gives its name where its type is 10 to 25, so that surfaces give none, and it refers to the names of its modifier and of its
 * alias target, where it has them; sides of mixtures do not count. Two primitives are bound where one gives a name that the other gives or
 * refers to; names are the same where their bytes are. The order of two is held where a chain of primitives leads from the upper one to
 * the lower one, the number of each below that of the next and each bound to the next. So where it is not held, the statements of a scene
 * can be put in an order that has these two the other way round and each two that are bound as they were. kribbelsteen_sort keeps
 * whatever is held.
 *
 * Returns 0 if nothing holds the order and 1 if it is held, or refuses: 18 if count is over 1,024 or more than the table holds; then 17 if
 * first is 0 or above count, if second is, or if both are the same; then 18 if any primitive up to count has a modifier or an alias target
 * that is not below it, or a name that has length 0 or lies outside the text.
 * answer: the primitive that a shortest chain from the upper one goes to first, of several the lowest number; and the primitive whose name
 * binds the upper one and that, which is the upper one where it gives its name and the other gives or refers to it, else the other. 0 and
 * 0 where nothing is held, and on a refusal. Nothing else is written. */
uint32_t kribbelsteen_mattered(const uint8_t *text, size_t text_len, const uint32_t *records, size_t records_len, size_t count,
                               size_t first, size_t second, size_t answer[2]);

/* The word at or after a place. Blanks are the bytes 9 to 13 and 32, and a word is a longest run of other bytes from there on;
 * comments are not known here. From inside a word the rest of it is found. Go on from place + length.
 *
 * answer: place and length of the word; where there is none, and for a place at or past the end, the text's length and 0.
 * There is no refusal, and nothing else is written. */
void kribbelsteen_next_word(const uint8_t *text, size_t text_len, size_t at, size_t answer[2]);

/* Reads two scene texts, both in one mode, each into two tables of its own, as kribbelsteen_read does with pairs enough.
 *
 * Returns 0 if both are accepted, else the reason, 1 to 16, 25, 26 or 28, of the one that is refused: the left one if both are.
 * answer: which save is refused and the place there; then primitives and reals of the left save, and of the right one. Accepted
 * saves have side and place 0, refused ones all four numbers 0.
 * Writes all four tables whole, whatever they held: after a refusal of either save all entries of all of them are 0. */
uint32_t kribbelsteen_read_both(uint32_t mode, const uint8_t *left, size_t left_len, uint32_t *left_records,
                                size_t left_records_len, double *left_reals, size_t left_reals_len, const uint8_t *right,
                                size_t right_len, uint32_t *right_records, size_t right_records_len, double *right_reals,
                                size_t right_reals_len, size_t answer[6]);

/* The next line of a comparison of two saves by name. The key of a primitive is its name and nth: which definition of that name it
 * is, from 1. A key has a line if only one save has it, or if both have it and type, strings, bits of the reals, key of the alias
 * target or key of the modifier is not the same; all NaNs count as one. Lines come in the order of names by bytes, then of nth.
 * Take this call where no more memory is to be lent, as each line takes a search through both saves, else kribbelsteen_next_ordered.
 *
 * Lend each table of records up to its last record, so that records_len is KRIBBELSTEEN_RECORD * primitives: all whole records that
 * are lent count. The tables may hold anything: name, strings and reals are what text and table have of those that a record states,
 * and a link to no record leads to no key. Strings that both saves state are gone through one by one, however many.
 *
 * line, before the call: side (0 left, any other right) and number of the primitive whose key to go on from; a number that no
 * primitive has, as 0, stands before all keys. The other two entries do not matter. So this shows all lines:
 *
 *     size_t line[4] = {0, 0, 0, 0};
 *     while (kribbelsteen_next_line(.., line)) ..
 *
 * Returns 1 for a line and 0 where there are no more.
 * line, after it: side and number of the primitive, in the left save if that has the key; nth; the state. All 0 where there are no
 * more lines, so a further call begins again. Nothing else is written. */
uint32_t kribbelsteen_next_line(const uint8_t *left, size_t left_len, const uint32_t *left_records, size_t left_records_len,
                                const double *left_reals, size_t left_reals_len, const uint8_t *right, size_t right_len,
                                const uint32_t *right_records, size_t right_records_len, const double *right_reals,
                                size_t right_reals_len, size_t line[4]);

/* Puts the names of a save in order, for kribbelsteen_next_ordered.
 *
 * Lend the table of records as for kribbelsteen_next_line; an order of two entries for each record, so that order_len is
 * 2 * primitives; and a scratch of one entry for each. The table of records may hold anything. As many records from the first on are
 * put in order as the least of 1,024, records_len / 11, order_len / 2 and scratch_len is.
 * Writes the order whole, whatever it held: in its first order_len / 2 entries the numbers of those records, by bytes of their names
 * and where names are the same by number, then 0; from there on the nth of record 1, of record 2 and so on, 0 for those that are not
 * put in order. The scratch is all 0 afterwards. There is no refusal, and nothing else is written. */
void kribbelsteen_order_names(const uint8_t *text, size_t text_len, const uint32_t *records, size_t records_len, uint32_t *order,
                              size_t order_len, uint32_t *scratch, size_t scratch_len);

/* The next line of a comparison of two saves by name, along an order of each. Where the orders are those of kribbelsteen_order_names,
 * with two entries and scratch for each record, and no save has over 1,024 records, the lines are those of kribbelsteen_next_line.
 * Take this call wherever memory can be lent for the orders: all lines together take one walk along both.
 *
 * Lend the tables of records as for that call. The orders too may hold anything: the call goes along whatever numbers the first half
 * of each holds, 0 among them, and takes nth from the rest, 0 where that has none. A number that no record has is one with no name.
 * Of the next numbers of both orders the one with the lesser key goes first, and both go together where their keys are the same.
 *
 * line, before the call: how many entries of the left and of the right order are passed; any number past the first half stands behind
 * all of them. The other four entries do not matter. So this shows all lines:
 *
 *     size_t line[6] = {0, 0, 0, 0, 0, 0};
 *     while (kribbelsteen_next_ordered(.., line)) ..
 *
 * Returns 1 for a line and 0 where there are no more.
 * line, after it: how many entries of each order are passed then; side, number, nth and state as for kribbelsteen_next_line. All 0
 * where there are no more lines, so a further call begins again. Nothing else is written. */
uint32_t kribbelsteen_next_ordered(const uint8_t *left, size_t left_len, const uint32_t *left_records, size_t left_records_len,
                                   const double *left_reals, size_t left_reals_len, const uint32_t *left_order,
                                   size_t left_order_len, const uint8_t *right, size_t right_len, const uint32_t *right_records,
                                   size_t right_records_len, const double *right_reals, size_t right_reals_len,
                                   const uint32_t *right_order, size_t right_order_len, size_t line[6]);

/* Writes the tidy text of a scene: four lines for a primitive (modifier, type and name; strings; integers; reals, each of the last
 * three with its count first) and one for an alias, one space between two words, no comments. An output of text_len + 1 bytes is
 * enough.
 *
 * The tables may hold anything: they are compared with a fresh reading of the text, in the mode, into tables of the same lengths,
 * which takes up to about 285 KB of stack. The used parts of longer tables will do.
 * Returns 0, or refuses: 1 to 16, 25, 26 or 28 as that reading does, then 22 if the tables differ from its tables in any entry or
 * bit, then 23 if the text is longer than the output.
 * answer: place of the refusal, bytes of the tidy text. A written scene has place 0, a refused one length 0.
 * Writes the output whole: bytes behind the text are 0, and on a refusal all are. The tables are not written. */
uint32_t kribbelsteen_write(uint32_t mode, const uint8_t *text, size_t text_len, const uint32_t *records, size_t records_len,
                            const double *reals, size_t reals_len, uint8_t *out, size_t out_len, size_t answer[2]);

/* Writes the tidy text of a scene as kribbelsteen_write does, with its glass moved. Glass of three reals has the index 1.52. Forth
 * spells it out: such glass gets a fourth real, `1.52`. Back drops a fourth real that is spelled exactly so; `1.520` and `+1.52` stay,
 * and so does all other glass. An alias has no reals of its own and stays as it is written. Forth and then back gives the tidy text
 * again where no glass of it has a fourth real spelled `1.52`. An output of 65,536 bytes is enough, and so is one of text_len + 1 and,
 * forth, five more for each glass of three reals.
 *
 * Takes up to about 350 KB of stack.
 * Returns 0, or refuses: as kribbelsteen_write does up to 22; then what a reading of the moved text into tables of the same lengths
 * would give, 1 if it has over 65,536 bytes, else 13 if it has more reals than there is room for, both at place 0; then 23 if it is
 * longer than the output.
 * answer: place of the refusal, bytes of the moved text. A written scene has place 0, a refused one length 0.
 * Writes the output whole: bytes behind the text are 0, and on a refusal all are. The tables are not written. */
uint32_t kribbelsteen_move_glass(uint32_t mode, uint32_t direction, const uint8_t *text, size_t text_len, const uint32_t *records,
                                 size_t records_len, const double *reals, size_t reals_len, uint8_t *out, size_t out_len,
                                 size_t answer[2]);

/* Writes a scene's own bytes with its statements in another order, grouped by type as far as names allow. Nothing is tidied: each
 * statement moves as a block of whole lines. A block ends with the line of its statement's last word and starts where the block before
 * it ends, so comments and blank lines belong to the statement below them, and a comment behind a statement, on its last line, to that
 * statement. What stands behind the last statement stays at the end. The sorted text has the length of the text, so an output of
 * text_len bytes is enough.
 *
 * Two statements keep their order where they have the same name, surfaces counted too, or where one of them, which is no surface, has
 * the name that the other refers to as its modifier or as its alias target; sides of mixtures do not count. A statement may come once
 * all that stand before it in the text and keep their order with it have come. Of those that may, the next one is the first in the text
 * of the type that came last, so that a type goes on as long as one of it may come; where there is none, the first of the least type
 * number. The type is that of the record, so an alias has its target's.
 *
 * The sorted text is accepted in the same mode, at the same lengths of tables, every panel has the finish it had, all numbering aside,
 * and a comparison of both texts shows no line. Sorting it gives it again.
 *
 * The tables may hold anything, as for kribbelsteen_write.
 * Returns 0, or refuses: as kribbelsteen_write does up to 22; then 33, at the text's length, if its last line is not ended, that is if it
 * has bytes and the last one is not 10; then 34 if a line has words of two statements, at the first word of the second of them, on the
 * first such line; then 23 if the output is shorter than the text.
 * answer: place of the refusal, bytes of the sorted text. A sorted scene has place 0, a refused one length 0.
 * Takes up to about 300 KB of stack.
 * Writes the output whole: bytes behind the text are 0, and on a refusal all are. The tables are not written. */
uint32_t kribbelsteen_sort(uint32_t mode, const uint8_t *text, size_t text_len, const uint32_t *records, size_t records_len,
                           const double *reals, size_t reals_len, uint8_t *out, size_t out_len, size_t answer[2]);

/* Joins two hands' edits of a base scene: the left hand's and the right hand's text.
 *
 * Only names that stand once in each of the three texts, surfaces counted, are handled. For each name one definition is taken, where
 * having none counts as a definition: if both hands have the same, that, spelled as the left hand did; else if one hand has the base's,
 * the other hand's. Two definitions are the same if the names of their modifiers are, and either both are aliases and the names of their
 * targets are the same, or both are primitives and type, strings and bits of the reals are. What an alias leads to does not count.
 *
 * The joined text is the tidy text, as kribbelsteen_write gives it, of what is taken. A definition needs its modifier, unless that is
 * `void`, and its alias target to stand above it, and no surface will do; sides of mixtures are not needed, as they may stand below. Of the
 * names whose needs stand already, the least by bytes comes next. An output of KRIBBELSTEEN_MOST_BYTES is enough. Joining with a hand that
 * changed nothing gives the other hand's definitions, and exchanging the hands changes at most spelling.
 *
 * All texts are read in the mode, each with the room that the lent tables have, as kribbelsteen_read does with pairs enough.
 * Returns 0, or refuses, in this order: 1 to 16, 25, 26 or 28 as the reading of the base does, then of the left text, then of the right
 * one; 29 if a name stands twice in one of them; 30 if both hands changed one name, and not to the same; 31 if no order puts each
 * definition after those it needs, as where one is missing or is a surface; then what the reading of the joined text gives, which can be
 * 1, at place 0, if it has over 65,536 bytes, 6, 13, 25 or 26; then 23 if it is longer than the output.
 * answer: which text is refused, as enum kribbelsteen_join_text has it, and the place there; bytes of the joined text, its primitives and
 * its reals. A joined scene has text and place 0, and so have 23 and 29 to 31; a refused one has the other three numbers 0.
 * Writes both tables and the output whole, whatever they held: the tables are left as reading the joined text leaves them, and bytes
 * behind the text are 0; on a refusal all entries of both tables and all bytes are 0. The three texts are not written.
 * Takes up to about 600 KB of stack, and time that grows with the square of the names. */
uint32_t kribbelsteen_join(uint32_t mode, const uint8_t *base, size_t base_len, const uint8_t *left, size_t left_len,
                           const uint8_t *right, size_t right_len, uint32_t *records, size_t records_len, double *reals,
                           size_t reals_len, uint8_t *out, size_t out_len, size_t answer[5]);

/* Checks a text that was typed as the join of two hands' edits. It is accepted exactly if it is read and holds the definitions that
 * kribbelsteen_join takes and no more, each name once, in any order and spelling that is read; so what kribbelsteen_join gives is accepted.
 * The accepted text goes into the output as it is: an output of typed_len bytes is enough.
 *
 * Returns 0, or refuses, in this order: as kribbelsteen_join does up to 31; 1 to 16, 25, 26 or 28 as the reading of the typed text does; 32
 * if it does not hold exactly these definitions; then 23 if it is longer than the output. The joined text need not be one that is read.
 * answer, tables and output are as for kribbelsteen_join, with the typed text for the joined one; 32 too has text and place 0. */
uint32_t kribbelsteen_check_join(uint32_t mode, const uint8_t *base, size_t base_len, const uint8_t *left, size_t left_len,
                                 const uint8_t *right, size_t right_len, const uint8_t *typed, size_t typed_len, uint32_t *records,
                                 size_t records_len, double *reals, size_t reals_len, uint8_t *out, size_t out_len,
                                 size_t answer[5]);

/* The least distance of a hit that names none: what is not above it is no hit, so that a ray which leaves a panel does not hit it
 * again. A call that ends in _above takes a least distance by name; with 0 all that is ahead of the ray's origin counts. A larger
 * least distance never turns a miss into a hit. */
#define KRIBBELSTEEN_LEAST 0.001

/* Where a ray hits a sphere.
 *
 * ray: origin x y z, direction x y z. sphere: centre x y z, radius. least: a distance from 0 on.
 * Returns 0 for a hit and 1 for a miss, or refuses: 20 if an input is NaN or infinite; 21 for a radius not above 0 or a least distance
 * below 0; then by the first step that fails 20 for a result that is NaN or infinite, 21 for a direction whose dot product with
 * itself is 0.
 * answer: the distance, in lengths of the direction, above the least one; 0 on a miss or a refusal. Nothing else is written. */
uint32_t kribbelsteen_sphere(const double ray[6], const double sphere[4], double answer[1]);
uint32_t kribbelsteen_sphere_above(const double ray[6], const double sphere[4], double least, double answer[1]);

/* Where a ray hits a ring.
 *
 * ray: origin x y z, direction x y z. ring: centre x y z, normal x y z, inner radius, outer radius. least: a distance from 0 on.
 * Returns 0 for a hit and 1 for a miss, or refuses: 20 if an input is NaN or infinite; 21 for an inner radius below 0, an outer one not
 * above it or a least distance below 0; then 20 for a step whose result is NaN or infinite.
 * answer: the distance, in lengths of the direction, above the least one; 0 on a miss or a refusal. Nothing else is written. */
uint32_t kribbelsteen_ring(const double ray[6], const double ring[8], double answer[1]);
uint32_t kribbelsteen_ring_above(const double ray[6], const double ring[8], double least, double answer[1]);

/* Where a ray hits a polygon: flat, its last corner joined to its first. A hole is joined to the rim by an edge that is gone along
 * twice.
 *
 * ray: origin x y z, direction x y z. corners: x y z of each. least: a distance from 0 on. The normal is the sum of the products of
 * consecutive corners, and the axis of its largest part is left out; a point of the plane is inside where a line from it crosses an
 * odd number of edges. An edge counts from its lower end on and not at its upper one.
 * Returns 0 for a hit and 1 for a miss, or refuses: 20 if an input is NaN or infinite; 21 for under 3 corners, a number of doubles that
 * is no multiple of 3 or a least distance below 0; then by the first step that fails 20 for a result that is NaN or infinite, 21 for a
 * normal that is 0.
 * answer: the distance, in lengths of the direction, above the least one; 0 on a miss or a refusal. Nothing else is written. */
uint32_t kribbelsteen_polygon(const double ray[6], const double *corners, size_t corners_len, double answer[1]);
uint32_t kribbelsteen_polygon_above(const double ray[6], const double *corners, size_t corners_len, double least,
                                    double answer[1]);

/* Where a ray hits a polygon of a scene, in tables that may hold anything. The text is not needed.
 *
 * Returns and answers as the calls for polygons do for the reals of the primitive of a number, or refuses before that: 18 and 17 as
 * kribbelsteen_name does for count and number, then 18 if it is no polygon or if not all its reals are in the table of reals. */
uint32_t kribbelsteen_polygon_in_table(const double ray[6], const uint32_t *records, size_t records_len, size_t count,
                                       size_t number, const double *reals, size_t reals_len, double answer[1]);
uint32_t kribbelsteen_polygon_in_table_above(const double ray[6], const uint32_t *records, size_t records_len, size_t count,
                                             size_t number, const double *reals, size_t reals_len, double least,
                                             double answer[1]);

/* Fresnel's coefficients for light that comes at a cosine cos1 from index n1 to index n2.
 *
 * Returns 0 for coefficients and 1 for total reflection, or refuses: 20 if an input is NaN or infinite; 21 for a cosine outside 0
 * to 1 or an index not above 0; then 20 for a step whose result is NaN or infinite.
 * answer: FTE, FTM and F, each from 0 to 1; 0 0 0 on total reflection or a refusal. Nothing else is written. */
uint32_t kribbelsteen_fresnel(double cos1, double n1, double n2, double answer[3]);

/* How much light a pane of glass lets through and how much it sends back, all reflections between its two sides counted: the factors in
 * brackets, without the colour. te and tm are the FTE and FTM of one side, ct is what is left of the light that crosses the pane once.
 *
 *     through: 0.5*(1-te)^2/(1-te^2*ct^2) + 0.5*(1-tm)^2/(1-tm^2*ct^2)
 *     back:    0.5*te*(1+(1-2*te)*ct^2)/(1-te^2*ct^2) + 0.5*tm*(1+(1-2*tm)*ct^2)/(1-tm^2*ct^2)
 *
 * with squares first, then left to right. Returns 0, or refuses: 20 if an input is NaN or infinite; 21 for an input outside 0 to 1;
 * then 20 for a step whose result is NaN or infinite, as where ct and te or tm are 1.
 * answer: through and back; 0 and 0 on a refusal. Nothing else is written. */
uint32_t kribbelsteen_pane_factors(double te, double tm, double ct, double answer[2]);

/* The transmissivity of glass whose transmittance is measured, above 0 and at most 1:
 *
 *     (root(.8402528435 + .0072522239*t*t) - .9166530661) / .0036261119 / t
 *
 * left to right, with kribbelsteen_root. It is below 0 for a transmittance under about 0.0001.
 * Returns 0, or refuses: 20 if the input is NaN or infinite; 21 if it is not above 0 or is above 1; then 20 for a step whose result is
 * infinite, as for the smallest subnormals.
 * answer: the transmissivity; 0 on a refusal. Nothing else is written. */
uint32_t kribbelsteen_transmissivity(double transmittance, double answer[1]);

/* The root of x: the largest double whose exact square is at most x, and +0 for either zero. It is rounded down, where sqrt
 * rounds to nearest. NaN where there is none: below 0, for an infinity and for NaN. Nothing is written. */
double kribbelsteen_root(double x);

#ifdef __cplusplus
}
#endif

#endif
