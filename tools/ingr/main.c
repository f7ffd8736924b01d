#include "commands.h"

int main(int count, char **words)
{
    return ingr_program(count, words);
}
