/* Signatures of messages: what libwayland's documentation of struct wl_message says of them, and what is none. */
#include "tests.h"

enum { ROOM = 24 };

/* A letter for each kind, in the order of the kinds. */
static const char letters[] = "iufsonah";

static nb_message_row message;
static nb_argument_row rows[ROOM];

static nb_status read_with(const char *signature, size_t room)
{
    message = (nb_message_row){ .name_at = 1, .name_length = 2, .since = 3, .is_destructor = 4, .arguments = 5 };
    memset(rows, 0xee, sizeof rows);
    return nb_read_signature((const uint8_t *)signature, strlen(signature), &message, rows, room);
}

/* Whether the rows of arguments from this one on are as they were before the call. */
static int is_untouched(size_t from)
{
    for (size_t i = from * sizeof *rows; i < sizeof rows; i++)
        if (((const uint8_t *)rows)[i] != 0xee)
            return 0;
    return 1;
}

/* A signature that says this version, and arguments of these letters, where a capital letter may be null. */
static void says(const char *signature, uint32_t since, const char *of)
{
    const size_t count = strlen(of);
    OK(read_with(signature, ROOM));
    HOLDS(message.since == since && message.arguments == count);
    HOLDS(message.name_at == 1 && message.name_length == 2 && message.is_destructor == 4);
    for (size_t i = 0; i < count; i++) {
        const int is_nullable = of[i] >= 'A' && of[i] <= 'Z';
        const char letter = (char)(is_nullable ? of[i] - 'A' + 'a' : of[i]);
        HOLDS(rows[i].kind == (uint32_t)(strchr(letters, letter) - letters));
        HOLDS(rows[i].is_nullable == (uint32_t)is_nullable && rows[i].interface == NB_INTERFACE_ANY);
    }
    HOLDS(is_untouched(count));
}

static void says_nothing(const char *signature)
{
    IS(read_with(signature, ROOM), NB_INVALID_INPUT);
    HOLDS(message.since == 3 && message.arguments == 5 && is_untouched(0));
}

static void has_no_room(const char *signature, uint32_t since, uint32_t count)
{
    IS(read_with(signature, count - 1), NB_TOO_SMALL);
    HOLDS(message.since == since && message.arguments == count && is_untouched(0));
    OK(read_with(signature, count));
    HOLDS(message.arguments == count && is_untouched(count));
}

int main(void)
{
    HOLDS(NB_INT == 0 && NB_UINT == 1 && NB_FIXED == 2 && NB_STRING == 3);
    HOLDS(NB_OBJECT == 4 && NB_NEW_ID == 5 && NB_ARRAY == 6 && NB_DESCRIPTOR == 7);

    says("", 1, "");
    says("iufsonah", 1, "iufsonah");
    says("usun", 1, "usun"); /* wl_registry.bind */
    says("?oii", 1, "Oii");  /* wl_surface.attach */
    says("2i", 2, "i");      /* wl_surface.set_buffer_transform */
    says("4iiii", 4, "iiii"); /* wl_surface.damage_buffer */
    says("3", 3, "");
    says("12?s?oa", 12, "SOa");
    says("?i?u?f?s?o?n?a?h", 1, "IUFSONAH");
    says("0u", 1, "u");
    says("007h", 7, "h");
    says("4294967295i", 4294967295u, "i");
    says("iiiiiiiiiiiiiiiiiiii", 1, "iiiiiiiiiiiiiiiiiiii");

    says_nothing("4294967296i");
    says_nothing("99999999999999999999i");
    says_nothing("?");
    says_nothing("i?");
    says_nothing("??o");
    says_nothing("?1o");
    says_nothing("i2");
    says_nothing("-1i");
    says_nothing(" i");
    says_nothing("I");
    says_nothing("b");
    says_nothing("i u");
    says_nothing("iuq");
    says_nothing("\xc3\xa9");

    has_no_room("u", 1, 1);
    has_no_room("5i?sno", 5, 4);

    /* A zero byte is no letter. */
    message.arguments = 5;
    IS(nb_read_signature((const uint8_t *)"i\0u", 3, &message, rows, ROOM), NB_INVALID_INPUT);
    /* Nothing is lent for a message without arguments. */
    OK(nb_read_signature((const uint8_t *)"6", 1, &message, NULL, 0));
    HOLDS(message.since == 6 && message.arguments == 0);
    return tell();
}
