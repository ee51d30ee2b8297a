/* Calls Lua's own `main` as `lua main.lua`, since a board has no command line. The compiler renames that one. */
#include <stdlib.h>

int lua_main(int count, char **words);

int main(void)
{
    static char *words[] = {"lua", "main.lua", NULL};
    exit(lua_main(2, words));
}
