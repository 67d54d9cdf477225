/* gcc -std=c11 -Wall -Wextra -Werror -Iinclude examples/list.c crates/exports/out/libexports.a -o list */
#include "hiwenoka.h"
#include <stdio.h>

int main(void)
{
    static uint8_t file[11265], text[HIWENOKA_TEXT_ROOM];
    size_t length = fread(file, 1, sizeof file, stdin);
    size_t end = hiwenoka_list_sheet(file, length, text, sizeof text);
    return fwrite(text, 1, end, stdout) != end;
}
