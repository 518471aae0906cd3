/* Prints the rules.txt of a folder in the house style. */
#include "folder.h"
#include "rl.h"

int main(int count, char **words) {
    static uint8_t text[ROOM], print[RL_PRINT_BYTES];
    size_t length = load(named(count, words), "rules.txt", text);
    RlPrinted printed = rl_print(text, length, print, sizeof print);
    stop_at(printed.number, printed.second);
    fwrite(print, 1, printed.length, stdout);
    return 0;
}
