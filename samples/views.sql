-- What an archive holds, line by line, for whoever looks in: `sqlite3 -readonly FILE`, and there `.read views.sql`.
-- All of it is temporary and goes with the session: FILE stays as it is, and what is read is what it has now.
-- docs/FORMATS.md says which lines a record of each kind has.

-- The records, without those of an import that a stop left open.
CREATE TEMP VIEW records (no, kind, batch) AS
SELECT record.no, kind, batch FROM record JOIN batch ON batch.no = record.batch WHERE NOT is_open;

-- Each line of each record: its place from 0, its depth, its tag, its text and the number that it names.
CREATE TEMP TABLE lines (no INTEGER, pos INTEGER, depth INTEGER, tag TEXT, text TEXT, named INTEGER);

WITH RECURSIVE part (no, pos, one, rest) AS (
  SELECT no, 0, '0 ' || tag || coalesce('>' || dst, '') || substr(text, 1, instr(text, char(10)) - 1),
    substr(text, instr(text, char(10)) + 1)
  FROM line WHERE no IN (SELECT no FROM records)
  UNION ALL
  SELECT no, pos + 1, substr(rest, 1, instr(rest, char(10)) - 1), substr(rest, instr(rest, char(10)) + 1)
  FROM part WHERE rest <> ''),
told (no, pos, depth, rest) AS MATERIALIZED (
  SELECT no, pos, CAST(one AS INTEGER), substr(one, instr(one, ' ') + 1) FROM part),
parted (no, pos, depth, head, text) AS MATERIALIZED (
  SELECT no, pos, depth, substr(rest, 1, instr(rest || ' ', ' ') - 1),
    CASE WHEN instr(rest, ' ') > 0 THEN replace(substr(rest, instr(rest, ' ') + 1), char(13), char(10)) END
  FROM told)
INSERT INTO lines SELECT no, pos, depth, substr(head, 1, instr(head || '>', '>') - 1), text,
  CASE WHEN instr(head, '>') > 0 THEN CAST(substr(head, instr(head, '>') + 1) AS INTEGER) END
FROM parted;

CREATE INDEX temp.lines_of_record ON lines (no, pos);
CREATE INDEX temp.lines_that_name ON lines (named);
CREATE INDEX temp.lines_by_tag ON lines (tag, depth);

-- Each name of each person, as it was entered, its surname between slashes.
CREATE TEMP VIEW names (no, name) AS
SELECT no, text FROM lines JOIN records USING (no) WHERE kind = 'person' AND depth = 1 AND tag = 'name';

-- The places, each with its path.
CREATE TEMP VIEW places (no, path, parent) AS
WITH RECURSIVE above (no, path, next) AS (
  SELECT no, text, named FROM lines WHERE depth = 0 AND tag = 'place'
  UNION ALL
  SELECT above.no, path || ', ' || text, named FROM above JOIN lines ON lines.no = next AND pos = 0)
SELECT above.no, path, named FROM above JOIN lines USING (no) WHERE next IS NULL AND pos = 0;

-- The events, each with the person or family that it is of.
CREATE TEMP VIEW events (no, owner, tag, value, date, place) AS
SELECT first.no, first.named, own.tag, own.text, at.text, at.named
FROM lines AS first JOIN lines AS own ON own.no = first.no AND own.pos = 1
LEFT JOIN lines AS at ON at.no = first.no AND at.depth = 1 AND at.pos > 1 AND at.tag = 'date'
WHERE first.depth = 0 AND first.tag = 'event';

-- The register entries.
CREATE TEMP VIEW entries (no, source, kind, page, item, date, place, text) AS
SELECT first.no, key.named, first.text, page.text, CAST(item.text AS INTEGER), at.text, at.named, said.text
FROM lines AS first
JOIN lines AS key ON key.no = first.no AND key.depth = 1 AND key.tag = 'key'
JOIN lines AS page ON page.no = first.no AND page.depth = 1 AND page.tag = 'page'
JOIN lines AS item ON item.no = first.no AND item.depth = 1 AND item.tag = 'item'
JOIN lines AS said ON said.no = first.no AND said.depth = 1 AND said.tag = 'text'
LEFT JOIN lines AS at ON at.no = first.no AND at.depth = 1 AND at.tag = 'date'
WHERE first.depth = 0 AND first.tag = 'entry';

-- The mentions of the entries, each with its place in the entry from 1, and the person it is linked to and why.
CREATE TEMP VIEW mentions (entry, place, role, name, person, reason) AS
SELECT one.no, row_number() OVER (PARTITION BY one.no ORDER BY one.pos), role.text, one.text, one.named, why.text
FROM lines AS one JOIN records USING (no)
JOIN lines AS role ON role.no = one.no AND role.pos = one.pos + 1
LEFT JOIN lines AS why ON why.no = one.no AND why.pos = one.pos + 2 AND why.depth = 2 AND why.tag = 'reason'
WHERE kind = 'entry' AND one.depth = 1 AND one.tag = 'mention';
