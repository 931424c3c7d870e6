/* The statements of a mix of commands and nothing else, over the system's SQLite: reads lines `P<tab>ID<tab>FORM<tab>ROOT` with
   `<tab>NAME<tab>KIND<tab>FIELDS` for each object behind (a record is written), `S<tab>ID<tab>NAME<tab>KIND<tab>FIELDS` (one object of it),
   `G<tab>ID` (one is read), `L<tab>FORM<tab>ID` (the next 100 ids) and `B<tab>N` (the next N that are written are one transaction, with what is
   read between). mix FILE < LINES */
#include "tables.h"

int main(int count, char **words) {
    if (count != 2 || sqlite3_open(words[1], &base) != SQLITE_OK) {
        return 1;
    }
    make_tables();
    sqlite3_stmt *begin = prepared("BEGIN IMMEDIATE"), *commit = prepared("COMMIT");
    sqlite3_stmt *find = prepared("SELECT form, root FROM record WHERE id = ?1");
    sqlite3_stmt *find_objects = prepared("SELECT name, kind, fields FROM object WHERE rec = ?1 ORDER BY name");
    sqlite3_stmt *list = prepared("SELECT id FROM record WHERE form = ?1 AND id > ?2 ORDER BY id LIMIT 100");
    char *line = NULL;
    size_t room = 0;
    int left = 0;
    while (read_line(&line, &room)) {
        switch (line[0]) {
        case 'B':
            left = atoi(parts[1]);
            with(begin, NULL, 0);
            break;
        case 'G':
            with(find, parts + 1, 1);
            with(find_objects, parts + 1, 1);
            break;
        case 'L':
            with(list, parts + 1, 2);
            break;
        case 'P':
        case 'S':
            if (line[0] == 'P') {
                put(parts + 1, part_count - 1);
            } else {
                with(update_object, parts + 1, 4);
            }
            if (--left == 0) {
                with(commit, NULL, 0);
            }
            break;
        }
    }
    sqlite3_stmt *all[] = {begin, commit, find, find_objects, list};
    for (size_t at = 0; at < sizeof all / sizeof *all; at++) {
        sqlite3_finalize(all[at]);
    }
    free(line);
    return close_base();
}
