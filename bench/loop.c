/* The statements of a put and nothing else, over the system's SQLite: reads lines `ID<tab>FORM<tab>ROOT` with `<tab>NAME<tab>KIND<tab>FIELDS`
   for each object behind, and writes each as a record, so many in one transaction, as formd does. loop FILE COUNT < LINES */
#include "tables.h"

int main(int count, char **words) {
    int together = count == 3 ? atoi(words[2]) : 0, open = 0;
    if (together < 1 || sqlite3_open(words[1], &base) != SQLITE_OK) {
        return 1;
    }
    make_tables();
    sqlite3_stmt *begin = prepared("BEGIN IMMEDIATE"), *commit = prepared("COMMIT");
    char *line = NULL;
    size_t room = 0;
    while (read_line(&line, &room)) {
        if (open == 0) {
            with(begin, NULL, 0);
        }
        put(parts, part_count);
        open = (open + 1) % together;
        if (open == 0) {
            with(commit, NULL, 0);
        }
    }
    if (open > 0) {
        with(commit, NULL, 0);
    }
    sqlite3_finalize(begin);
    sqlite3_finalize(commit);
    free(line);
    return close_base();
}
