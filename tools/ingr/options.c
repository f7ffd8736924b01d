#include "options.h"
#include <string.h>
#include "say.h"

/* The rule of an option by the text after its dashes, up to "="; NULL where there is none. */
static const struct option_rule *rule_of(const struct option_rule *rules, const char *text)
{
    const size_t size = strcspn(text, "=");
    for (; rules->name != NULL; rules++)
        if (strlen(rules->name) == size && strncmp(rules->name, text, size) == 0)
            return rules;
    return NULL;
}

/* Takes an option; its value may be the next word. Answers the words that it has, 0 where it is wrong. */
static int take_option(const struct option_rule *rules, const char *word, const char *next)
{
    const struct option_rule *rule = rule_of(rules, word + 2);
    const char *equals = strchr(word, '=');
    if (rule == NULL) {
        wrong_word(word, "there is no such option");
        return 0;
    }
    if (rule->value == NULL && equals != NULL) {
        wrong_usage("--%s has no value", rule->name);
        return 0;
    }
    if (rule->value == NULL) {
        *rule->is_set = 1;
        return 1;
    }
    *rule->value = equals != NULL ? equals + 1 : next;
    if (*rule->value == NULL)
        wrong_usage("--%s needs a value", rule->name);
    return *rule->value == NULL ? 0 : equals != NULL ? 1 : 2;
}

int take_options(char **words, const struct option_rule *rules)
{
    int operands = 0, over = 0;
    for (int at = 0; words[at] != NULL;) {
        char *word = words[at];
        if (over || word[0] != '-' || word[1] == '\0') {
            words[operands++] = word;
            at++;
        } else if (strcmp(word, "--") == 0) {
            over = 1;
            at++;
        } else if (word[1] != '-') {
            wrong_word(word, "there is no such option; after -- a name may begin with a dash");
            return -1;
        } else {
            const int taken = take_option(rules, word, words[at + 1]);
            if (taken == 0)
                return -1;
            at += taken;
        }
    }
    words[operands] = NULL;
    return operands;
}

int is_input_once(char **operands)
{
    int count = 0;
    for (; *operands != NULL; operands++)
        count += strcmp(*operands, "-") == 0;
    if (count > 1)
        wrong_usage("standard input can be read once");
    return count <= 1;
}

int take_number(const char *word, uint32_t least, uint32_t most, uint32_t *number)
{
    uint64_t sum = 0;
    const char *at = word;
    for (; *at >= '0' && *at <= '9' && sum <= UINT32_MAX; at++)
        sum = 10 * sum + (uint64_t)(*at - '0');
    if (at == word || *at != '\0' || sum < least || sum > most)
        return 0;
    *number = (uint32_t)sum;
    return 1;
}
