/* Reads a sheet on standard input and prints what the program prints for it. */
#include <stdio.h>

#include "thunyaworm.h"

static uint8_t sheet[THUNYAWORM_SHEET_BUFFER];
static uint8_t room[THUNYAWORM_ROOM];

int main(void)
{
    size_t length = fread(sheet, 1, sizeof sheet, stdin);
    size_t printed = thunyaworm_print(sheet, length, 1000000, room, sizeof room);
    fwrite(room, 1, printed, stdout);
    return 0;
}
