// Appends records of 100 bytes to the table of a journal by the system's SQLite: one prepared INSERT, a commit for each. The settings are
// those of the keeper's connection: a write-ahead log, a sync at each commit, and the file held alone (or, by a word, not).
//
// usage: bench_keeper FILE COUNT [shared]      appends so many
//        bench_keeper FILE tell                prints how many records there are, the last seq, and what they hold
#include <sqlite3.h>
#include <stdio.h>
#include <stdlib.h>
#include <string.h>

static sqlite3 *database;

static void stop(void) {
  fprintf(stderr, "%s\n", sqlite3_errmsg(database));
  exit(1);
}

static void run(const char *text) {
  if (sqlite3_exec(database, text, 0, 0, 0)) stop();
}

static sqlite3_stmt *prepared(const char *text) {
  sqlite3_stmt *statement;
  if (sqlite3_prepare_v2(database, text, -1, &statement, 0)) stop();
  return statement;
}

static sqlite3_int64 last_seq(void) {
  sqlite3_stmt *statement = prepared("SELECT seq FROM journal ORDER BY seq DESC LIMIT 1");
  sqlite3_int64 seq = sqlite3_step(statement) == SQLITE_ROW ? sqlite3_column_int64(statement, 0) : 0;
  sqlite3_finalize(statement);
  return seq;
}

static void tell(void) {
  sqlite3_stmt *statement = prepared("SELECT COUNT(*) || ' ' || MAX(seq) || ' ' || GROUP_CONCAT(DISTINCT HEX(rec)) FROM journal");
  if (sqlite3_step(statement) != SQLITE_ROW) stop();
  printf("%s\n", sqlite3_column_text(statement, 0));
  sqlite3_finalize(statement);
}

static void append(long count) {
  char record[100];
  memset(record, 7, sizeof record);
  sqlite3_int64 seq = last_seq();
  sqlite3_stmt *insert = prepared("INSERT INTO journal(seq, rec) VALUES(?, ?)");
  for (; count > 0; count--) {
    sqlite3_bind_int64(insert, 1, ++seq);
    sqlite3_bind_blob(insert, 2, record, sizeof record, SQLITE_STATIC);
    if (sqlite3_step(insert) != SQLITE_DONE) stop();
    sqlite3_reset(insert);
  }
}

int main(int count, char **words) {
  if (count < 3 || sqlite3_open(words[1], &database)) return 2;
  if (!strcmp(words[2], "tell")) {
    tell();
    return 0;
  }
  run(count > 3 ? "PRAGMA locking_mode=NORMAL" : "PRAGMA locking_mode=EXCLUSIVE");
  run("PRAGMA journal_mode=WAL");
  run("PRAGMA synchronous=FULL");
  run("CREATE TABLE IF NOT EXISTS journal(seq INTEGER PRIMARY KEY, rec BLOB NOT NULL)");
  append(atol(words[2]));
  return 0;
}
