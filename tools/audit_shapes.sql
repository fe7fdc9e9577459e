-- audit_shapes.sql: what an auditor asks of the shapes that a register of version 3 keeps of its last release:
--     sqlite3 -readonly -header -column register.db <tools/audit_shapes.sql

.print
.print Shapes that are kept, live identifiers, and bytes of the shapes in all:
SELECT (SELECT count(*) FROM lpis_text) AS shapes, (SELECT count(*) FROM lpis_span WHERE until = 0) AS live, (SELECT coalesce(sum(length(wkt)), 0) FROM lpis_text) AS bytes;

.print
.print Shapes of identifiers that are not live (wanted: none):
SELECT id FROM lpis_text WHERE NOT EXISTS (SELECT 1 FROM lpis_span WHERE lpis_span.id = lpis_text.id AND until = 0) ORDER BY id;

.print
.print The ten longest shapes:
SELECT id, length(wkt) AS bytes FROM lpis_text ORDER BY 2 DESC, 1 LIMIT 10;

.print
.print Rows of lineage that are marked as exact, by release:
SELECT year, count(*) AS exact FROM lpis_mark GROUP BY year ORDER BY year;
