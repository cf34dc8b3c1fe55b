/* Kormaglen in PostgreSQL. docs/ENGINES.md describes each function, and kormaglen--1.0.sql declares them. */
#include "extension.h"

#include "utils/builtins.h"

PG_MODULE_MAGIC;

PG_FUNCTION_INFO_V1(sql_version);
Datum sql_version(PG_FUNCTION_ARGS) {
    PG_RETURN_TEXT_P(cstring_to_text(kormaglen_version()));
}
