#include <errno.h>
#include <stdio.h>
#include <stdlib.h>
#include <string.h>

int main(void)
{
    char line[32];
    FILE *file = fopen("words.txt", "r");
    if (file == NULL || fseek(file, 4, SEEK_SET) != 0 || fgets(line, sizeof line, file) == NULL)
        exit(1);
    printf("words.txt has %s", line);
    printf("none: %s\n", fopen("none", "r") == NULL ? strerror(errno) : "it is there");
    exit(ftell(file) == 10 ? 0 : 2);
}
