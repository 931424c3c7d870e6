/* The two tables and the statements of a put, as formd has them, over the system's SQLite. */
#include <sqlite3.h>
#include <stdio.h>
#include <stdlib.h>
#include <string.h>

#define MOST_OBJECTS 256
#define MOST_PARTS (4 + 3 * MOST_OBJECTS)

static sqlite3 *base;
static sqlite3_stmt *find_record, *update_record, *insert_record, *find_parts, *delete_object, *update_object, *insert_object;

/* the parts of the line that was read, between its tabs */
static char *parts[MOST_PARTS];
static int part_count;

static void fail(const char *text) {
    fprintf(stderr, "%s: %s\n", text, sqlite3_errmsg(base));
    exit(1);
}

static void run(const char *text) {
    if (sqlite3_exec(base, text, NULL, NULL, NULL) != SQLITE_OK) {
        fail(text);
    }
}

static sqlite3_stmt *prepared(const char *text) {
    sqlite3_stmt *made;
    if (sqlite3_prepare_v2(base, text, -1, &made, NULL) != SQLITE_OK) {
        fail(text);
    }
    return made;
}

/* Binds these texts. */
static void bind(sqlite3_stmt *made, char **texts, int count) {
    for (int at = 0; at < count; at++) {
        sqlite3_bind_text(made, at + 1, texts[at], -1, SQLITE_STATIC);
    }
}

/* Runs a statement with these texts, and steps over its rows. */
static void with(sqlite3_stmt *made, char **texts, int count) {
    bind(made, texts, count);
    int found;
    while ((found = sqlite3_step(made)) == SQLITE_ROW) {
        sqlite3_column_text(made, 0);
    }
    if (found != SQLITE_DONE) {
        fail(sqlite3_sql(made));
    }
    sqlite3_reset(made);
}

static void make_tables(void) {
    run("PRAGMA journal_mode = WAL");
    run("PRAGMA synchronous = FULL");
    run("PRAGMA foreign_keys = ON");
    run("CREATE TABLE record (id TEXT NOT NULL PRIMARY KEY, form TEXT NOT NULL, root TEXT NOT NULL)");
    run("CREATE TABLE object (rec TEXT NOT NULL REFERENCES record (id) ON DELETE CASCADE, name TEXT NOT NULL, kind TEXT NOT NULL,"
        " fields TEXT NOT NULL, PRIMARY KEY (rec, name))");
    find_record = prepared("SELECT form, root FROM record WHERE id = ?1");
    update_record = prepared("UPDATE record SET form = ?2, root = ?3 WHERE id = ?1");
    insert_record = prepared("INSERT INTO record (id, form, root) VALUES (?1, ?2, ?3)");
    find_parts = prepared("SELECT name, kind, fields FROM object WHERE rec = ?1");
    delete_object = prepared("DELETE FROM object WHERE rec = ?1 AND name = ?2");
    update_object = prepared("UPDATE object SET kind = ?3, fields = ?4 WHERE rec = ?1 AND name = ?2");
    insert_object = prepared("INSERT INTO object (rec, name, kind, fields) VALUES (?1, ?2, ?3, ?4)");
}

/* Whether the row that a statement has found shows these texts in so many columns. */
static int shows(sqlite3_stmt *found, char **texts, int count) {
    for (int at = 0; at < count; at++) {
        if (strcmp((const char *)sqlite3_column_text(found, at), texts[at]) != 0) {
            return 0;
        }
    }
    return 1;
}

/* Whether the record of an id has a row, which then has this form and root. */
static int write_head(char **record) {
    bind(find_record, record, 1);
    int stands = sqlite3_step(find_record) == SQLITE_ROW;
    int same = stands && shows(find_record, record + 1, 2);
    sqlite3_reset(find_record);
    if (stands && !same) {
        with(update_record, record, 3);
    }
    return stands;
}

/* Writes the objects of a record that has some: takes out those that it lacks now, and passes over those that are the same. */
static void replace_objects(char **record, int count) {
    char same[MOST_PARTS] = {0}, *lacked[MOST_OBJECTS];
    int many = 0;
    bind(find_parts, record, 1);
    while (sqlite3_step(find_parts) == SQLITE_ROW) {
        int at = 3;
        while (at < count && !shows(find_parts, record + at, 1)) {
            at += 3;
        }
        if (at < count) {
            same[at] = (char)shows(find_parts, record + at, 3);
        } else {
            lacked[many++] = strdup((const char *)sqlite3_column_text(find_parts, 0));
        }
    }
    sqlite3_reset(find_parts);
    for (int at = 0; at < many; at++) {
        char *place[2] = {record[0], lacked[at]};
        with(delete_object, place, 2);
        free(lacked[at]);
    }
    for (int at = 3; at < count; at += 3) {
        if (!same[at]) {
            char *object[4] = {record[0], record[at], record[at + 1], record[at + 2]};
            with(update_object, object, 4);
            if (sqlite3_changes(base) == 0) {
                with(insert_object, object, 4);
            }
        }
    }
}

/* Writes a record, in place of that of its id: its id, form and root, and for each object its name, kind and fields. */
static void put(char **record, int count) {
    if (write_head(record)) {
        replace_objects(record, count);
        return;
    }
    with(insert_record, record, 3);
    for (int at = 3; at < count; at += 3) {
        char *object[4] = {record[0], record[at], record[at + 1], record[at + 2]};
        with(insert_object, object, 4);
    }
}

/* Reads a line into its parts; 0 behind the last. */
static int read_line(char **line, size_t *room) {
    ssize_t length = getline(line, room, stdin);
    if (length <= 0) {
        return 0;
    }
    (*line)[length - 1] = 0;
    part_count = 0;
    for (char *part = *line; part != NULL && part_count < MOST_PARTS; part_count++) {
        parts[part_count] = part;
        part = strchr(part, '\t');
        if (part != NULL) {
            *part++ = 0;
        }
    }
    return 1;
}

static int close_base(void) {
    sqlite3_stmt *all[] = {find_record, update_record, insert_record, find_parts, delete_object, update_object, insert_object};
    for (size_t at = 0; at < sizeof all / sizeof *all; at++) {
        sqlite3_finalize(all[at]);
    }
    return sqlite3_close(base) == SQLITE_OK ? 0 : 1;
}
