/* ingr move: a sheet of type 9 of one of type 1, or the other way. */
#include <stdio.h>
#include "commands.h"
#include "options.h"
#include "output.h"
#include "room.h"
#include "sheet.h"
#include "words.h"

const char move_help[] =
    "usage: ingr move FILE OUT\n"
    "Makes a sheet of type 9 of one of type 1, or one of type 1 of one of type 9, with the same\n"
    "pixels. Every line has to be good. - is standard input, or standard output for OUT.\n";

struct moving {
    const struct input *input;
    struct room room;
    uint32_t result;
    uint8_t answer[INGR_MOVE_ANSWER];
};

static void call_move(void *about)
{
    struct moving *moving = about;
    moving->result = ingr_move(moving->input->bytes, moving->input->size, moving->room.bytes,
                               moving->room.size, moving->answer, sizeof moving->answer);
}

/* Moves an open file into the room; answers the exit status. */
static int move_into_room(struct moving *moving)
{
    struct sheet sheet;
    struct trouble trouble;
    const struct input *input = moving->input;
    uint32_t result = sheet_header(&sheet, input, &trouble);
    if (result == 0) {
        /* The library looks for the room last of all. */
        if (!room_take(&moving->room, INGR_MOVE_ROOM(input->size, sheet.ppl, sheet.nol), &trouble))
            result = UNREADABLE;
        else
            result = input_ask(input, call_move, moving, &trouble) ? moving->result : UNREADABLE;
    }
    return result == 0 ? STATUS_GOOD : complain_of(input->name, result, &trouble);
}

/* Writes what was moved. */
static int write_moved(struct output *output, const void *about, struct trouble *trouble)
{
    const struct moving *moving = about;
    return output_write(output, moving->room.bytes, INGR_NUMBER(moving->answer, INGR_MOVE_LENGTH), trouble);
}

int move_command(char **words)
{
    static const struct option_rule rules[] = {{NULL, NULL, NULL}};
    const int count = take_options(words, rules);
    struct input input;
    if (count < 0)
        return STATUS_TROUBLE;
    if (count != 2)
        return wrong_usage("a file and a name for what is made of it are wanted");
    if (!open_or_complain(&input, words[0]))
        return STATUS_TROUBLE;
    struct moving moving = {.input = &input};
    int status = move_into_room(&moving);
    if (status == STATUS_GOOD && !output_store(words[1], write_moved, &moving))
        status = STATUS_TROUBLE;
    room_give_back(&moving.room);
    input_close(&input);
    return status;
}
