/* A schema of a later version, for `store.c`: only its second part is used. */
static const char *const store_parts[] = { "", "ALTER TABLE devices ADD COLUMN word TEXT; INSERT INTO version VALUES (2, 0);" };
