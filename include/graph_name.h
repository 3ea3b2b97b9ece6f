/* The functions of libgraph_name.a. docs/FORMAT.md has the formats byte for byte; bindings/c/example.c uses the functions.
 *
 * A byte slice is a pointer and then a length. No pointer is null, also where the length is 0, and a buffer that is written overlaps no other of the call; nothing
 * else is asked. The result is one of the numbers below, 0 for done. A number behind a pointer is written on 0 only, except line, start,
 * length and offset of the two readings, which are always written, and are 0 on 0. Bytes of an output past what is written stay. A flag
 * that comes in is false at 0 and true at every other value; a flag that goes out is 1 or 0. A record is a buffer of
 * GRAPH_NAME_RECORD_BYTES bytes, and a tag list a block of GRAPH_NAME_TAGS_BYTES; all zeros is the empty one of each. The places given by the
 * accessors of either are counted from its first byte. */
#ifndef GRAPH_NAME_H
#define GRAPH_NAME_H

#include <stddef.h>
#include <stdint.h>

#ifdef __cplusplus
extern "C" {
#endif

/* The numbers that the functions give. Where several hold, 15 of any record comes before 16 of any, then 18, then 29, 19, 20 and 21 in this
 * order, then 1 to 14 in the order of the text, then 17. */
enum graph_name_number {
    GRAPH_NAME_DONE = 0,
    GRAPH_NAME_SHORT_LINE = 1,                /* a line of fewer than two fields, which tabs separate */
    GRAPH_NAME_UNKNOWN_FIRST_FIELD = 2,       /* a line's first field is neither H nor three bytes of which the first is @ */
    GRAPH_NAME_BAD_TYPED_FIELD = 3,           /* a field of an H line under 5 bytes, or whose third or fifth byte is no colon */
    GRAPH_NAME_BAD_SUBGRAPH_FIELD = 4,        /* a value of SG of type Z is not two non-empty parts round one comma */
    GRAPH_NAME_BAD_TRANSLATION_FIELD = 5,     /* the same of TL */
    GRAPH_NAME_BAD_NAME_LINE = 6,             /* an @RN line without exactly one further field, non-empty */
    GRAPH_NAME_BAD_SUBGRAPH_LINE = 7,         /* an @SG line without exactly two further fields, both non-empty */
    GRAPH_NAME_BAD_TRANSLATION_LINE = 8,      /* the same of @TL */
    GRAPH_NAME_BAD_SUBGRAPH_RELATION = 9,     /* a relation of the subgraph tag is not two non-empty parts round one comma */
    GRAPH_NAME_BAD_TRANSLATION_RELATION = 10, /* the same of the translation tag */
    GRAPH_NAME_LONG_NAME = 11,                /* a name of over GRAPH_NAME_MAX_NAME_BYTES */
    GRAPH_NAME_NAMES_FULL = 12,               /* over GRAPH_NAME_MAX_NAMES distinct names */
    GRAPH_NAME_PAIRS_FULL = 13,               /* over GRAPH_NAME_MAX_PAIRS pairs of either kind */
    GRAPH_NAME_BODIES_FULL = 14,              /* distinct names of over GRAPH_NAME_MAX_BODIES_BYTES together */
    GRAPH_NAME_WRONG_BUFFER = 15,             /* a record buffer is not of GRAPH_NAME_RECORD_BYTES */
    GRAPH_NAME_NOT_A_RECORD = 16,             /* a record buffer breaks the layout */
    GRAPH_NAME_OUTPUT_SHORT = 17,             /* an output is shorter than the result */
    GRAPH_NAME_LONG_DESC = 18,                /* a desc of over GRAPH_NAME_MAX_DESC_BYTES */
    GRAPH_NAME_BAD_KEY = 19,                  /* a tag's key of over GRAPH_NAME_MAX_KEY_BYTES, or with a byte above 127 */
    GRAPH_NAME_LONG_VALUE = 20,               /* a tag's value of over GRAPH_NAME_MAX_VALUE_BYTES */
    GRAPH_NAME_TAGS_FULL = 21,                /* over GRAPH_NAME_MAX_TAGS tags */
    GRAPH_NAME_NOT_A_TAG_LIST = 29            /* a tag list is not of GRAPH_NAME_TAGS_BYTES, or breaks the layout */
};

/* The sizes of a record. */
#define GRAPH_NAME_RECORD_BYTES 32768      /* every record buffer has this length */
#define GRAPH_NAME_MAX_NAME_BYTES 256      /* one name, and so the pggname tag's value */
#define GRAPH_NAME_MAX_NAMES 512           /* distinct names */
#define GRAPH_NAME_MAX_PAIRS 1024          /* pairs of each kind */
#define GRAPH_NAME_MAX_BODIES_BYTES 22520  /* all distinct names together */
#define GRAPH_NAME_MAX_DESC_BYTES 4096     /* each desc of a description */

/* The sizes of a tag list. */
#define GRAPH_NAME_TAGS_BYTES 264452       /* every tag list has this length */
#define GRAPH_NAME_MAX_TAGS 32             /* tags */
#define GRAPH_NAME_MAX_KEY_BYTES 64        /* one key */
#define GRAPH_NAME_MAX_VALUE_BYTES 8192    /* one value, and so what removing a tag writes */

/* The largest outputs: one of this length is never refused with GRAPH_NAME_OUTPUT_SHORT (docs/FORMAT.md has the sums). */
#define GRAPH_NAME_MAX_PATH_BYTES 49134            /* a path: these bytes always hold one */
#define GRAPH_NAME_MAX_GFA_BYTES 1067272           /* GFA header lines */
#define GRAPH_NAME_MAX_GAF_BYTES 1061125           /* GAF header lines */
#define GRAPH_NAME_MAX_RELATIONS_TAG_BYTES 526335  /* the subgraph tag's value, and the translation tag's */
#define GRAPH_NAME_MAX_MESSAGE_WORDS 68            /* an error message, beyond the part that it quotes */
#define GRAPH_NAME_MAX_DESCRIPTION_BYTES 96216     /* a description */

/* The kind of the step that leaves a name, in a path's bytes; the last name has GRAPH_NAME_LAST. */
enum graph_name_kind { GRAPH_NAME_SUBGRAPH = 0, GRAPH_NAME_TRANSLATION = 1, GRAPH_NAME_LAST = 2 };

/* The record of a graph with this name and no pairs. */
uint32_t graph_name_new(const uint8_t *name, size_t name_len, uint8_t *record, size_t record_len);

/* Reads a text of header lines, which byte 10 ends. A refusal leaves the empty record and gives its line, from 1, and the place in the text of
 * the quoted part: none (0 and 0) for 1 and 11 to 14, the first field for 2, the field for 3 to 5, the whole line for 6 to 8. It also gives
 * an offset, the byte of the text, from 0, where the fault lies: for 1 the line's first, for 2 to 8 that of the quoted part, for 11 to 14
 * that of the field; of an @ line this is the second field, also where the third is the long one. 15 leaves the buffer, and its line and
 * its offset are 0. */
uint32_t graph_name_from_header_lines(const uint8_t *text, size_t text_len, uint8_t *record, size_t record_len,
                                      uint64_t *line, uint64_t *start, uint64_t *length, uint64_t *offset);

/* Reads the three tag values; the bytes of one whose flag is 0 are not looked at. A refusal gives line 0 and the place in its tag's value of
 * the quoted part: the relation for 9 and 10, none for the others. Its offset is the byte of that value, from 0, where the relation begins,
 * and 0 for a long own name and for 15. 11 to 14 do not say in which tag the offset counts. */
uint32_t graph_name_from_tags(uint32_t has_name, const uint8_t *name, size_t name_len,
                              uint32_t has_subgraph, const uint8_t *subgraph, size_t subgraph_len,
                              uint32_t has_translation, const uint8_t *translation, size_t translation_len,
                              uint8_t *record, size_t record_len,
                              uint64_t *line, uint64_t *start, uint64_t *length, uint64_t *offset);

/* The text of a reading refusal, without a line end: the number, the line and the quoted part are those that the reading gave. It is empty
 * for numbers other than 1 to 10. */
uint32_t graph_name_error_message(uint32_t number, uint64_t line, const uint8_t *part, size_t part_len,
                                  uint8_t *out, size_t out_len, uint64_t *written);

/* How many distinct names, subgraph pairs and translation pairs a record holds. */
uint32_t graph_name_counts(const uint8_t *record, size_t record_len,
                           uint64_t *names, uint64_t *subgraph, uint64_t *translation);

/* The own name of a record. */
uint32_t graph_name_name(const uint8_t *record, size_t record_len, uint64_t *present, uint64_t *start, uint64_t *length);

/* The name at a place, from 0, in ascending order. */
uint32_t graph_name_name_at(const uint8_t *record, size_t record_len, uint64_t place,
                            uint64_t *present, uint64_t *start, uint64_t *length);

/* The pair at a place, from 0, in ascending order. */
uint32_t graph_name_subgraph_at(const uint8_t *record, size_t record_len, uint64_t place, uint64_t *present,
                                uint64_t *from_start, uint64_t *from_length, uint64_t *to_start, uint64_t *to_length);
uint32_t graph_name_translation_at(const uint8_t *record, size_t record_len, uint64_t place, uint64_t *present,
                                   uint64_t *from_start, uint64_t *from_length, uint64_t *to_start, uint64_t *to_length);

/* Adds a pair. Nothing is added if either name is empty. */
uint32_t graph_name_add_subgraph(uint8_t *record, size_t record_len, const uint8_t *from, size_t from_len,
                                 const uint8_t *to, size_t to_len);
uint32_t graph_name_add_translation(uint8_t *record, size_t record_len, const uint8_t *from, size_t from_len,
                                    const uint8_t *to, size_t to_len);

/* Adds the pair of both own names and all pairs of the parent. Nothing is added if either graph is unnamed. */
uint32_t graph_name_make_subgraph_of(uint8_t *record, size_t record_len, const uint8_t *parent, size_t parent_len);
uint32_t graph_name_add_translation_to(uint8_t *record, size_t record_len, const uint8_t *parent, size_t parent_len);

/* Adds all pairs of the other record. */
uint32_t graph_name_add_relationships(uint8_t *record, size_t record_len, const uint8_t *other, size_t other_len);

/* Whether both graphs are named and the names are equal. */
uint32_t graph_name_is_same(const uint8_t *record, size_t record_len, const uint8_t *other, size_t other_len, uint64_t *answer);

/* Whether a path leads from the first graph to the second over the pairs of both records: subgraph pairs, or pairs of both kinds. On a
 * yes the path's bytes are written: how many names, then for each its length and a graph_name_kind, then the names. All these numbers have
 * two bytes, low byte first. GRAPH_NAME_MAX_PATH_BYTES always hold them; a no needs no room. */
uint32_t graph_name_is_subgraph_of(const uint8_t *record, size_t record_len, const uint8_t *other, size_t other_len,
                                   uint8_t *out, size_t out_len, uint64_t *answer);
uint32_t graph_name_translates_to(const uint8_t *record, size_t record_len, const uint8_t *other, size_t other_len,
                                  uint8_t *out, size_t out_len, uint64_t *answer);

/* The header lines of a record, each ended by byte 10. */
uint32_t graph_name_to_gfa_header_lines(const uint8_t *record, size_t record_len, uint8_t *out, size_t out_len, uint64_t *written);
uint32_t graph_name_to_gaf_header_lines(const uint8_t *record, size_t record_len, uint8_t *out, size_t out_len, uint64_t *written);

/* The three tag values of a record. */
uint32_t graph_name_set_tags(const uint8_t *record, size_t record_len, uint8_t *name_out, size_t name_out_len,
                             uint8_t *subgraph_out, size_t subgraph_out_len, uint8_t *translation_out, size_t translation_out_len,
                             uint64_t *has_name, uint64_t *name_length, uint64_t *has_subgraph, uint64_t *subgraph_length,
                             uint64_t *has_translation, uint64_t *translation_length);

/* How many tags a tag list holds. */
uint32_t graph_name_tags_counts(const uint8_t *list, size_t list_len, uint64_t *tags);

/* The tag at a place, from 0, in ascending order of keys: where its key and its value stand in the list. Past the end all five numbers are 0. */
uint32_t graph_name_tags_at(const uint8_t *list, size_t list_len, uint64_t place, uint64_t *present,
                            uint64_t *key_start, uint64_t *key_length, uint64_t *value_start, uint64_t *value_length);

/* The value of a key, as a place in the list. Here and below the capitals A to Z of a key are lowered before it is used, and an empty key is
 * a key; 19 looks at the key as it comes. */
uint32_t graph_name_tags_get(const uint8_t *list, size_t list_len, const uint8_t *key, size_t key_len,
                             uint64_t *present, uint64_t *start, uint64_t *length);

/* Whether there is a tag with this key. */
uint32_t graph_name_tags_contains_key(const uint8_t *list, size_t list_len, const uint8_t *key, size_t key_len, uint64_t *answer);

/* Sets the value of a key: a new tag, or another value for a key that is there, which is no 21 in a full list. A refusal leaves the list. */
uint32_t graph_name_tags_insert(uint8_t *list, size_t list_len, const uint8_t *key, size_t key_len,
                                const uint8_t *value, size_t value_len);

/* Removes the tag of a key and writes the value that it had. If the value does not fit, nothing is removed; if there is no such tag, nothing
 * is written and no room needed, and present and written are 0. */
uint32_t graph_name_tags_remove(uint8_t *list, size_t list_len, const uint8_t *key, size_t key_len, uint8_t *out, size_t out_len,
                                uint64_t *present, uint64_t *written);

/* Sets the tags pggname, subgraph and translation to the values that graph_name_set_tags gives for a record, and removes those of them that
 * are absent there. 20 and 21 are judged after all three changes; a refusal leaves the list. */
uint32_t graph_name_tags_set_graph_name(uint8_t *list, size_t list_len, const uint8_t *record, size_t record_len);

/* The description of how two graphs are related, with a desc of each. */
uint32_t graph_name_describe_relationship(const uint8_t *record, size_t record_len, const uint8_t *other, size_t other_len,
                                          const uint8_t *self_desc, size_t self_desc_len,
                                          const uint8_t *other_desc, size_t other_desc_len,
                                          uint8_t *out, size_t out_len, uint64_t *written);

/* The strict reading of one header line: 0 for fine, else one more than the number of the first faulty field. */
uint64_t graph_name_check_strict(const uint8_t *line, size_t line_len);

#ifdef __cplusplus
}
#endif

#endif
