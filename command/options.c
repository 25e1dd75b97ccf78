/* The words behind the command's name: options anywhere, names in order. */
#include "command.h"

#include <string.h>

/* What may stand behind which option: 0 nothing, 'n' a number, 's' a name. */
static const struct option {
    const char *name;
    char letter, takes, flag;
} known[] = {
    {"--jobs", 'j', 'n', OPTION_JOBS},     {"--json", 0, 0, OPTION_JSON},      {"--width", 0, 'n', OPTION_WIDTH},
    {"--output", 'o', 's', OPTION_OUTPUT}, {"--csv", 0, 's', OPTION_CSV},      {"--help", 'h', 0, OPTION_HELP},
};

enum status wrong_usage(const char *what, const char *word)
{
    struct text told = TEXT_TO(2);
    put(&told, "vendorfinch: ");
    put(&told, what);
    put_path(&told, word);
    put(&told, "\nTry 'vendorfinch --help'.\n");
    text_end(&told);
    return COULD_NOT;
}

/* The option that a word is, and the value in it; NULL where it is none of this command. */
static const struct option *find_option(const char *word, unsigned flags, char **value)
{
    *value = NULL;
    for (size_t i = 0; i < sizeof known / sizeof *known; i++) {
        const struct option *option = &known[i];
        size_t length = strlen(option->name);
        if (!(option->flag & flags))
            continue;
        if (strncmp(word, option->name, length) == 0 && (word[length] == 0 || word[length] == '=')) {
            *value = word[length] ? (char *)word + length + 1 : NULL;
            return option;
        }
        if (option->letter && word[0] == '-' && word[1] == option->letter) {
            *value = word[2] ? (char *)word + 2 : NULL;
            return option;
        }
    }
    return NULL;
}

/* The number that these digits are, at most a billion; -1 where they are none. */
static long number_of(const char *digits)
{
    long number = 0;
    if (!*digits)
        return -1;
    for (; *digits; digits++) {
        if (*digits < '0' || *digits > '9')
            return -1;
        number = number < 100000000 ? 10 * number + (*digits - '0') : 1000000000;
    }
    return number;
}

/* Sets what an option says; 0 where its value is wrong. */
static int set_option(struct options *options, const struct option *option, const char *value)
{
    long number = option->takes == 'n' ? number_of(value) : 0;
    if (number < 0)
        return 0;
    switch (option->flag) {
    case OPTION_JOBS: options->jobs = (unsigned)number; return number >= 1 && number <= 256;
    case OPTION_WIDTH: options->width = (size_t)number; return 1;
    case OPTION_JSON: options->json = 1; return 1;
    case OPTION_HELP: options->help = 1; return 1;
    case OPTION_OUTPUT: options->output = value; return 1;
    default: options->csv = value; return 1;
    }
}

/* One option and its value; answers how many words it took, 0 where it is wrong and that is told. */
static int take_option(struct options *options, unsigned flags, char **words, int count)
{
    char *value;
    const struct option *option = find_option(words[0], flags, &value);
    int taken = 1;
    if (!option || (!option->takes && value)) {
        wrong_usage("no such option: ", words[0]);
        return 0;
    }
    if (option->takes && !value) {
        if (count < 2) {
            wrong_usage("nothing behind ", words[0]);
            return 0;
        }
        value = words[1];
        taken = 2;
    }
    if (set_option(options, option, value))
        return taken;
    wrong_usage("not permitted here: ", value);
    return 0;
}

/* Names in order to the front of the words. */
enum status options_of(struct options *options, unsigned flags, char **words, int count)
{
    int names = 0, only_names = 0;
    for (int i = 0; i < count;) {
        if (only_names || words[i][0] != '-' || words[i][1] == 0) {
            words[names++] = words[i++];
        } else if (strcmp(words[i], "--") == 0) {
            only_names = 1;
            i++;
        } else {
            int taken = take_option(options, flags, words + i, count - i);
            if (taken == 0)
                return COULD_NOT;
            i += taken;
        }
    }
    options->model = names ? words[0] : NULL;
    options->files = words + (names > 0);
    options->count = names ? (size_t)names - 1 : 0;
    return DONE;
}

enum status options_fit(const struct options *options, size_t least, size_t most, const char *needs)
{
    int inputs = options->model && strcmp(options->model, "-") == 0;
    if (!options->model || options->count < least || options->count > most)
        return wrong_usage("this needs ", needs);
    for (size_t i = 0; i < options->count; i++)
        inputs += strcmp(options->files[i], "-") == 0;
    return inputs > 1 ? wrong_usage("only one name may be ", "-") : DONE;
}
