/* Lists the circuit "input 1 or input 2" as separate cubes, and then shows how a file is refused that is no circuit. */
#include "jerovuha.h"

#include <stdio.h>
#include <string.h>

static const char first[] = "aag 3 2 0 1 1\n2\n4\n7\n6 5 3\n";
static const char bad[] = "aag 01 1 0 1 0\n2\n2\n";

/* Prints the list of the file's circuit, or the refusal as the programs print it. */
static uint32_t show(const char *file)
{
    static const char *const layers[] = {"text", "circuit", "listing", "table"};
    static const char *const stages[] = {"reading", "deciding", "listing"};
    static uint8_t text[JEROVUHA_TEXT_BYTES];
    jerovuha_answer answer;
    uint32_t number =
        jerovuha_list((const uint8_t *)file, strlen(file), JEROVUHA_SEPARATE, text, sizeof text, &answer);

    if (number == JEROVUHA_OK)
        fwrite(text, 1, answer.length, stdout);
    else
        printf("refused %lu %s %lu %lu %s\n", (unsigned long)number, layers[answer.layer],
               (unsigned long)answer.place, (unsigned long)answer.line, stages[answer.stage]);
    return number;
}

int main(void)
{
    return show(first) == JEROVUHA_OK && show(bad) == JEROVUHA_BAD_NUMBER ? 0 : 1;
}
