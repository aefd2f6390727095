/* Does what crates/rows_driver does by SQLite's C library: puts rows, gets them by their keys, or reads all.
   rows JOB COUNT [FILE], with the keys and the bodies as texts, in WAL mode with synchronous FULL. */
#include <sqlite3.h>
#include <stdio.h>
#include <stdlib.h>
#include <string.h>

static sqlite3 *db;

static void run(const char *sql) {
  if (sqlite3_exec(db, sql, NULL, NULL, NULL) != SQLITE_OK) exit(1);
}

static sqlite3_stmt *prepared(const char *sql) {
  sqlite3_stmt *statement;
  if (sqlite3_prepare_v2(db, sql, -1, &statement, NULL) != SQLITE_OK) exit(1);
  return statement;
}

static void put_rows(long count) {
  sqlite3_stmt *put = prepared(
      "INSERT INTO entry (key, body) VALUES (?1, ?2) ON CONFLICT(key) DO UPDATE SET body = excluded.body");
  for (long n = 0; n < count; n++) {
    char key[24], body[96];
    snprintf(key, sizeof key, "%ld", n);
    snprintf(body, sizeof body, "[%ld,\"a note of forty characters, as one keeps\"]", n);
    sqlite3_bind_text(put, 1, key, -1, SQLITE_TRANSIENT);
    sqlite3_bind_text(put, 2, body, -1, SQLITE_TRANSIENT);
    if (sqlite3_step(put) != SQLITE_DONE) exit(1);
    sqlite3_reset(put);
  }
  sqlite3_finalize(put);
}

static long got_rows(long count) {
  sqlite3_stmt *get = prepared("SELECT body FROM entry WHERE key = ?1");
  long found = 0;
  for (long n = 0; n < count; n++) {
    char key[24];
    snprintf(key, sizeof key, "%ld", n);
    sqlite3_bind_text(get, 1, key, -1, SQLITE_TRANSIENT);
    if (sqlite3_step(get) == SQLITE_ROW && sqlite3_column_text(get, 0)[0] == '[') found++;
    sqlite3_reset(get);
  }
  sqlite3_finalize(get);
  return found;
}

static long read_rows(void) {
  sqlite3_stmt *all = prepared("SELECT key, body FROM entry ORDER BY key");
  long found = 0;
  while (sqlite3_step(all) == SQLITE_ROW) found += sqlite3_column_text(all, 1)[0] == '[';
  sqlite3_finalize(all);
  return found;
}

int main(int count_of_words, char **words) {
  if (count_of_words < 3) return 2;
  const char *job = words[1];
  long count = atol(words[2]), found = 0;
  if (sqlite3_open(count_of_words > 3 ? words[3] : ":memory:", &db) != SQLITE_OK) return 1;
  run("PRAGMA journal_mode = WAL; PRAGMA synchronous = FULL");
  run("CREATE TABLE IF NOT EXISTS entry (key TEXT PRIMARY KEY NOT NULL, body TEXT NOT NULL) STRICT");
  if (!strcmp(job, "put") || !strcmp(job, "commits")) {
    if (!strcmp(job, "put")) run("BEGIN");
    put_rows(count);
    if (!strcmp(job, "put")) run("COMMIT");
    found = read_rows();
  } else {
    found = !strcmp(job, "get") ? got_rows(count) : read_rows();
  }
  printf("%ld\n", found);
  return sqlite3_close(db) == SQLITE_OK ? 0 : 1;
}
