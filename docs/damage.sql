-- Lists the damage in the records of a vault, one line for each table or row: the number of the damage,
-- its kind, and the key of the row. It prints nothing for sound records, and it changes nothing.
--
--   sqlite3 -readonly found/custody.db < damage.sql
--
-- If a table is missing, sqlite3 reports that for each query on the table, and goes on. (Schema 1 has no
-- table of holds.)

-- H0: no record.
SELECT 'H0', 'no table', 'meta'
WHERE NOT EXISTS (SELECT * FROM sqlite_schema WHERE type = 'table' AND name = 'meta');
SELECT 'H0', 'no row of meta' WHERE NOT EXISTS (SELECT * FROM meta);

-- H3: another schema.
SELECT 'H3', 'schema', schema_no FROM meta WHERE schema_no NOT IN (1, 2);

-- H4: tables, and fields out of form.
WITH wanted (name) AS (VALUES ('registry'), ('part'), ('notice'), ('handover'))
SELECT 'H4', 'no table', name FROM wanted
WHERE name NOT IN (SELECT name FROM sqlite_schema WHERE type = 'table');

-- (Schema 2 has a table of holds, and schema 1 has none.)
SELECT 'H4', iif(schema_no = 1, 'table of schema 2', 'no table'), 'hold' FROM meta
WHERE schema_no IN (1, 2) AND schema_no <> 1 + (SELECT count(*) FROM sqlite_schema WHERE type = 'table' AND name = 'hold');

SELECT 'H4', 'meta', one FROM meta WHERE one <> 1;

SELECT 'H4', 'registry', tld FROM registry
WHERE length(tld) NOT BETWEEN 1 AND 63 OR tld GLOB '*[^a-z0-9-]*' OR tld GLOB '-*' OR tld GLOB '*-'
    OR first_day NOT BETWEEN 0 AND 2932531;

SELECT 'H4', 'part', tld, day, rev, part FROM part
WHERE day NOT BETWEEN 10957 AND 2932531 OR rev NOT BETWEEN 0 AND 99 OR part NOT BETWEEN 1 AND 8
    OR kind NOT IN ('full', 'diff', 'incr') OR received NOT BETWEEN 0 AND 253370764799
    OR keep_day <> strftime('%s', received, 'unixepoch', '+1 year') / 86400
        - (strftime('%m-%d', received, 'unixepoch') = '02-29')
    OR len NOT BETWEEN 1 AND 1048576 OR length(sha) <> 32
    OR length(extents) = 0 OR length(extents) % 8 <> 0;

SELECT 'H4', 'notice', tld, number FROM notice
WHERE number < 1 OR day NOT BETWEEN 0 AND 2932531 OR at NOT BETWEEN 0 AND 253370764799
    OR CASE kind WHEN 20 THEN rev <> 0 OR id <> ''
        ELSE kind NOT BETWEEN 0 AND 13 OR rev NOT BETWEEN 0 AND 99
            OR length(id) NOT BETWEEN 1 AND 13 OR id GLOB '*[^A-Za-z0-9]*' END;

SELECT 'H4', 'handover', reference FROM handover
WHERE length(reference) NOT BETWEEN 1 AND 32 OR reference GLOB '*[^A-Za-z0-9-]*'
    OR ground NOT IN ('operator', 'termination', 'no_notices', 'sunday_failed', 'five_failed',
        'insolvency', 'critical', 'order', 'audit')
    OR at NOT BETWEEN 0 AND 253370764799 OR names <> '' AND substr(names, -1) <> char(10);

SELECT 'H4', 'hold', reference FROM hold
WHERE length(reference) NOT BETWEEN 1 AND 32 OR reference GLOB '*[^A-Za-z0-9-]*'
    OR length(tld) NOT BETWEEN 1 AND 63 OR tld GLOB '*[^a-z0-9-]*' OR tld GLOB '-*' OR tld GLOB '*-'
    OR day NOT BETWEEN 0 AND 2932531 OR at NOT BETWEEN 0 AND 253370764799
    OR lifted NOT BETWEEN 0 AND 253370764799;

-- The extents of the parts, by their first block and their number of blocks.
CREATE TEMP VIEW extent AS
SELECT part.*, place.value AS place,
    (SELECT sum(instr('123456789ABCDEF', substr(hex(extents), 16 * place.value + digit.value, 1))
        << 4 * (8 - digit.value)) FROM generate_series(1, 8) AS digit) AS first,
    (SELECT sum(instr('123456789ABCDEF', substr(hex(extents), 16 * place.value + digit.value, 1))
        << 4 * (16 - digit.value)) FROM generate_series(9, 16) AS digit) AS count
FROM part, generate_series(0, length(extents) / 8 - 1) AS place WHERE extents IS NOT NULL;

-- H5: extents out of range or without blocks, and counts that do not add up.
SELECT 'H5', 'extent', tld, day, rev, part, first, count FROM extent, meta
WHERE first = 0 OR count = 0 OR first + count > blocks;

SELECT 'H5', 'counts', tld, day, rev, part, sum(count) FROM extent
GROUP BY tld, day, rev, part HAVING sum(count) <> (len + 4095) / 4096;

-- H6: a block that an earlier extent has.
SELECT 'H6', 'block', tld, day, rev, part, first FROM (
    SELECT *, max(first + count) OVER (ORDER BY first, tld, day, rev, part, place
        ROWS BETWEEN UNBOUNDED PRECEDING AND 1 PRECEDING) AS behind FROM extent)
WHERE first < behind;

-- H7: a part without its predecessor, a revision without the failure before it, a notice without its
-- predecessor or without a part, two verdicts, receipts or absences, and a name without a part.
SELECT 'H7', 'no part before', tld, day, rev, part FROM part AS this
WHERE part > 1 AND NOT EXISTS (SELECT * FROM part WHERE tld = this.tld AND day = this.day
    AND rev = this.rev AND part = this.part - 1 AND kind = this.kind);

SELECT 'H7', 'no failure before', tld, day, rev, part FROM part
WHERE rev > 0 AND (tld, day, rev - 1) NOT IN
    (SELECT tld, day, rev FROM notice WHERE kind BETWEEN 1 AND 13);

SELECT 'H7', 'no notice before', tld, number FROM notice AS this
WHERE number > 1 AND NOT EXISTS
    (SELECT * FROM notice WHERE tld = this.tld AND number = this.number - 1);

SELECT 'H7', 'no part of a verdict', tld, number FROM notice
WHERE kind <> 20 AND (tld, day, rev) NOT IN (SELECT tld, day, rev FROM part WHERE part = 1);

SELECT 'H7', 'two verdicts', tld, day, rev FROM notice WHERE kind <> 20
GROUP BY tld, day, rev HAVING count(*) > 1;

SELECT 'H7', iif(kind = 0, 'two receipts', 'two absences'), tld, day FROM notice
WHERE kind IN (0, 20) GROUP BY tld, day, kind HAVING count(*) > 1;

SELECT 'H7', 'no part of a release', reference, line.value FROM handover, json_each('['
    || replace(json_quote(substr(names, 1, length(names) - 1)), '\n', '","') || ']') AS line
WHERE names <> '' AND (tld, line.value) NOT IN (SELECT tld, tld || '_'
    || date(day * 86400, 'unixepoch') || '_' || kind || '_S' || part || '_R' || rev || '.ryde'
    FROM part);

SELECT 'H7', 'no registry', name, tld FROM (SELECT 'part' AS name, tld FROM part
    UNION SELECT 'notice', tld FROM notice UNION SELECT 'handover', tld FROM handover)
WHERE tld NOT IN (SELECT tld FROM registry);

SELECT 'H7', 'no registry', 'hold', tld FROM hold WHERE tld NOT IN (SELECT tld FROM registry);
