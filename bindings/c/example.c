/* Reads header lines into two records, shows a refusal, asks how the two graphs are related, writes GAF lines, and keeps the tags of a
 * graph. It prints bindings/example.stdout.
 *
 *   ./build
 *   cc -Iinclude -o target/example bindings/c/example.c target/staticlib/libgraph_name.a
 *   target/example
 */
#include "graph_name.h"

#include <stdio.h>
#include <stdlib.h>
#include <string.h>

/* Outputs of the largest sizes are never too short. */
static uint8_t sample[GRAPH_NAME_RECORD_BYTES];
static uint8_t reference[GRAPH_NAME_RECORD_BYTES];
static uint8_t path[GRAPH_NAME_MAX_PATH_BYTES];
static uint8_t lines[GRAPH_NAME_MAX_GAF_BYTES];

/* All zeros is the empty tag list. */
static uint8_t tags[GRAPH_NAME_TAGS_BYTES];

/* Ends the program if a call was refused. */
static void must(uint32_t number)
{
    if (number != GRAPH_NAME_DONE) {
        fprintf(stderr, "refused with %u\n", (unsigned)number);
        exit(1);
    }
}

static void print(const uint8_t *bytes, uint64_t length)
{
    fwrite(bytes, 1, length, stdout);
}

/* Reads header lines into a record, and prints a refusal: its number, its line, its offset in the text, from 0, and the error message with
 * the quoted part of the text. */
static void read_lines(const char *text, uint8_t *record)
{
    const uint8_t *bytes = (const uint8_t *)text;
    size_t size = strlen(text);
    uint64_t line, start, length, offset, written;
    uint32_t number = graph_name_from_header_lines(bytes, size, record, GRAPH_NAME_RECORD_BYTES, &line, &start, &length, &offset);
    if (number == GRAPH_NAME_DONE)
        return;
    uint8_t *message = malloc(GRAPH_NAME_MAX_MESSAGE_WORDS + length);
    if (message == NULL)
        exit(1);
    must(graph_name_error_message(number, line, bytes + start, length, message, GRAPH_NAME_MAX_MESSAGE_WORDS + length, &written));
    printf("refused with %u in line %llu at byte %llu: ", (unsigned)number, (unsigned long long)line, (unsigned long long)offset);
    print(message, written);
    printf("\n");
    free(message);
}

/* A number of two bytes, low byte first. */
static unsigned number_at(const uint8_t *bytes)
{
    return bytes[0] + 256u * bytes[1];
}

/* Prints the names of a path: a count, an entry for each name (its length, the kind of the step that leaves it), and the names. */
static void print_path(void)
{
    static const char *const words[] = {" is a subgraph of", " translates to", ""};
    unsigned count = number_at(path);
    const uint8_t *entry = path + 2;
    const uint8_t *name = entry + 4 * count;
    for (unsigned i = 0; i < count; i++) {
        printf("  ");
        print(name, number_at(entry));
        printf("%s\n", words[number_at(entry + 2)]);
        name += number_at(entry);
        entry += 4;
    }
}

/* Sets a tag. */
static void set_tag(const char *key, const char *value)
{
    must(graph_name_tags_insert(tags, sizeof tags, (const uint8_t *)key, strlen(key), (const uint8_t *)value, strlen(value)));
}

/* Prints the value of a key, and then all tags. */
static void print_tags(const char *key)
{
    uint64_t present, start, length, count, value_start, value_length;
    must(graph_name_tags_get(tags, sizeof tags, (const uint8_t *)key, strlen(key), &present, &start, &length));
    printf("%s: ", key);
    print(tags + start, length);
    must(graph_name_tags_counts(tags, sizeof tags, &count));
    printf("\n%llu tags\n", (unsigned long long)count);
    for (uint64_t place = 0; place < count; place++) {
        must(graph_name_tags_at(tags, sizeof tags, place, &present, &start, &length, &value_start, &value_length));
        printf("  ");
        print(tags + start, length);
        printf(": ");
        print(tags + value_start, value_length);
        printf("\n");
    }
}

int main(void)
{
    /* The third field that the @SG line of line 2 must have is missing. */
    read_lines("@RN\tchr20\n@SG\tchr20\n", sample);

    read_lines("H\tVN:Z:1.1\tNM:Z:chr20\nH\tSG:Z:chr20,clipped\n", sample);
    read_lines("@RN\tfull\n@TL\tclipped\tfull\n", reference);

    /* The questions go by the relations of both records. */
    uint64_t answer, written;
    must(graph_name_is_subgraph_of(sample, sizeof sample, reference, sizeof reference, path, sizeof path, &answer));
    printf("subgraph: %s\n", answer ? "yes" : "no");
    must(graph_name_translates_to(sample, sizeof sample, reference, sizeof reference, path, sizeof path, &answer));
    printf("translates: %s\n", answer ? "yes" : "no");
    if (answer)
        print_path();

    /* The sample takes over the relations of the reference, and is written with them. */
    must(graph_name_add_relationships(sample, sizeof sample, reference, sizeof reference));
    must(graph_name_to_gaf_header_lines(sample, sizeof sample, lines, sizeof lines, &written));
    print(lines, written);

    /* A tag of another kind stays beside the three of the sample. Keys are lowered. */
    set_tag("Source", "field office");
    must(graph_name_tags_set_graph_name(tags, sizeof tags, sample, sizeof sample));
    print_tags("SOURCE");
    return 0;
}
