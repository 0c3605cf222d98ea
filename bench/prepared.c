/* SQLite in memory with one query that is prepared once: it is bound and stepped to its end for each value.

   prepared GROUND QUERY VALUES

   GROUND is a script, QUERY a SELECT with one parameter, VALUES has a value a line: a number or a text. It prints how
   many rows came. */

#include <sqlite3.h>
#include <stdio.h>
#include <stdlib.h>
#include <string.h>

enum { LONGEST = 4096 };

static void check(int status, sqlite3 *database) {
    if (status != SQLITE_OK && status != SQLITE_DONE && status != SQLITE_ROW) {
        fprintf(stderr, "prepared: %s\n", sqlite3_errmsg(database));
        exit(1);
    }
}

static char *read_whole(const char *path) {
    FILE *file = fopen(path, "rb");
    if (!file || fseek(file, 0, SEEK_END)) {
        perror(path);
        exit(1);
    }
    long size = ftell(file);
    rewind(file);
    char *text = malloc(size + 1);
    if (!text || fread(text, 1, size, file) != (size_t)size) {
        perror(path);
        exit(1);
    }
    text[size] = 0;
    fclose(file);
    return text;
}

/* A value of digits is a number. */
static int bind_value(sqlite3_stmt *query, const char *value) {
    char *end;
    long long number = strtoll(value, &end, 10);
    if (*value && !*end) return sqlite3_bind_int64(query, 1, number);
    return sqlite3_bind_text(query, 1, value, -1, SQLITE_TRANSIENT);
}

/* All rows for one value. Each column is looked at, as a site would. */
static long count_rows(sqlite3 *database, sqlite3_stmt *query, const char *value) {
    long rows = 0;
    int status;
    check(bind_value(query, value), database);
    while ((status = sqlite3_step(query)) == SQLITE_ROW) {
        for (int column = 0; column < sqlite3_column_count(query); column++) sqlite3_column_text(query, column);
        rows++;
    }
    check(status, database);
    check(sqlite3_reset(query), database);
    return rows;
}

int main(int count, char **words) {
    if (count != 4) return 2;
    sqlite3 *database;
    sqlite3_stmt *query;
    char *ground = read_whole(words[1]), *select = read_whole(words[2]), value[LONGEST];
    check(sqlite3_open(":memory:", &database), database);
    check(sqlite3_exec(database, ground, NULL, NULL, NULL), database);
    check(sqlite3_prepare_v2(database, select, -1, &query, NULL), database);
    FILE *values = fopen(words[3], "rb");
    if (!values) {
        perror(words[3]);
        return 1;
    }
    long rows = 0;
    while (fgets(value, sizeof value, values)) {
        value[strcspn(value, "\n")] = 0;
        rows += count_rows(database, query, value);
    }
    printf("%ld\n", rows);
    return 0;
}
