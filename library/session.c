/* Runs the requests of a text file from a fresh network and prints document 01's line for each: session SCHEME REQUESTS */
#include <inttypes.h>
#include <stdio.h>
#include <stdlib.h>
#include <string.h>

#include "gatekeeper.h"

enum { MOST_BYTES = 65536, MOST_MEMBERS = 256 };

static uint8_t scheme[MOST_BYTES];
static size_t scheme_length;
static uint8_t network[MOST_BYTES];
static size_t network_length;
static uint16_t output[MOST_MEMBERS];

static void fail(const char *what)
{
    fprintf(stderr, "session: %s\n", what);
    exit(1);
}

static void read_scheme(const char *name)
{
    FILE *file = fopen(name, "rb");
    if (file == NULL)
        fail("no scheme");
    scheme_length = fread(scheme, 1, sizeof scheme, file);
    fclose(file);
    if (gatekeeper_check(scheme, scheme_length) != GATEKEEPER_GRANTED)
        fail("the scheme is refused");
}

static void print_list(int position, size_t v, size_t u)
{
    size_t count = 0;
    uint8_t answer = gatekeeper_list(scheme, scheme_length, network, network_length, v, u, output, MOST_MEMBERS, &count);
    printf("%d %d", position, answer);
    for (size_t i = 0; i < count; i++)
        printf(" %" PRIu16, output[i]);
    printf("\n");
}

/* A view, asked as a question too. */
static uint8_t view(size_t v, size_t u, size_t o)
{
    gatekeeper_question question = {v, u, o, UINT8_MAX};
    uint8_t answer = gatekeeper_view(scheme, scheme_length, network, network_length, v, u, o);
    if (gatekeeper_views(scheme, scheme_length, network, network_length, &question, 1) != GATEKEEPER_GRANTED)
        fail("a list of one question is refused");
    if (question.answer != answer || question.viewer != v || question.owner != u || question.item != o)
        fail("a question is not answered as a view");
    return answer;
}

static uint8_t answer_to(const char *name, size_t x, size_t y, size_t z)
{
    if (strcmp(name, "event") == 0)
        return gatekeeper_event(scheme, scheme_length, network, network_length, x, y, z);
    if (strcmp(name, "set") == 0)
        return gatekeeper_set(scheme, scheme_length, network, network_length, x, y, z);
    if (strcmp(name, "find") == 0)
        return gatekeeper_find(scheme, scheme_length, network, network_length, x, y);
    if (strcmp(name, "view") == 0)
        return view(x, y, z);
    fail("no such request");
    return 0;
}

int main(int count, char **arguments)
{
    if (count != 3)
        fail("session SCHEME REQUESTS");
    read_scheme(arguments[1]);
    network_length = gatekeeper_network_length(scheme, scheme_length);
    if (gatekeeper_fresh(scheme, scheme_length, network, network_length) != GATEKEEPER_GRANTED)
        fail("no fresh network");

    FILE *file = fopen(arguments[2], "r");
    if (file == NULL)
        fail("no requests");
    char line[80], name[8];
    size_t x, y, z;
    for (int position = 1; fgets(line, sizeof line, file) != NULL; position++) {
        z = 0;
        if (sscanf(line, "%7s %zu %zu %zu", name, &x, &y, &z) < 3)
            fail("a request that cannot be read");
        if (strcmp(name, "list") == 0)
            print_list(position, x, y);
        else
            printf("%d %d\n", position, answer_to(name, x, y, z));
    }
    fclose(file);
    return 0;
}
