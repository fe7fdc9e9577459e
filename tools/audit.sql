-- audit.sql: what an auditor asks a register, of version 2 or 3:  sqlite3 -readonly -header -column register.db <tools/audit.sql
-- Reads alone. The tables are described in docs/FORMATS.md.

.print
.print The version of its tables, and whether SQLite finds the file and the keys between its tables whole (ok, and no row):
SELECT version FROM lpis_format;
PRAGMA integrity_check;
PRAGMA foreign_key_check;

.print
.print Each release: identifiers that are live in it, that begin in it, that it dropped, and its rows of lineage:
SELECT year,
       (SELECT count(*) FROM lpis_span WHERE since <= year AND (until = 0 OR until >= year)) AS live,
       (SELECT count(*) FROM lpis_span WHERE since = year) AS new,
       (SELECT count(*) FROM lpis_span WHERE until = (SELECT max(year) FROM lpis_release AS r WHERE r.year < lpis_release.year)) AS dropped,
       (SELECT count(*) FROM lpis_row WHERE lpis_row.year = lpis_release.year) AS rows
FROM lpis_release ORDER BY year;

.print
.print What became of dropped identifiers, by release: ended, one successor, several successors:
SELECT year, count(*) FILTER (WHERE ends > 0) AS ended, count(*) FILTER (WHERE ends = 0 AND successors = 1) AS one,
       count(*) FILTER (WHERE successors > 1) AS several
FROM (SELECT year, old, count(*) FILTER (WHERE new = '') AS ends, count(*) FILTER (WHERE new <> '') AS successors FROM lpis_row GROUP BY year, old)
GROUP BY year ORDER BY year;

.print
.print The ten identifiers with the most successors in one release, and the ten with the most predecessors:
SELECT year, old AS identifier, count(*) AS successors FROM lpis_row WHERE new <> '' GROUP BY year, old HAVING count(*) > 1 ORDER BY 3 DESC, 1, 2 LIMIT 10;
SELECT year, new AS identifier, count(*) AS predecessors FROM lpis_row WHERE new <> '' GROUP BY year, new HAVING count(*) > 1 ORDER BY 3 DESC, 1, 2 LIMIT 10;

.print
.print Rows that no lawful register has (wanted: none): dropped without a row, a row of an identifier that stays, a successor that is not there:
SELECT 'dropped without a row' AS fault, id AS identifier, until AS year FROM lpis_span
WHERE until <> 0 AND NOT EXISTS (SELECT 1 FROM lpis_row WHERE old = id AND year = (SELECT min(year) FROM lpis_release WHERE lpis_release.year > until))
UNION ALL
SELECT 'not dropped', old, year FROM lpis_row
WHERE NOT EXISTS (SELECT 1 FROM lpis_span WHERE id = old AND until = (SELECT max(year) FROM lpis_release WHERE lpis_release.year < lpis_row.year))
UNION ALL
SELECT 'no such successor', new, year FROM lpis_row
WHERE new <> '' AND NOT EXISTS (SELECT 1 FROM lpis_span WHERE id = new AND since <= year AND (until = 0 OR until >= year))
ORDER BY 3, 1, 2;
