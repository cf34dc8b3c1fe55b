-- Counts of documents by the children of a facet, worked out by hand.
.nullvalue NULL
CREATE TABLE place(id INTEGER, facet);
INSERT INTO place VALUES
    (1, '/shop/light'), (1, '/shop/light/led'), (1, '/shop/light/led'), (2, '/shop/light/led'), (3, '/shop/lights'), (4, '/shop'),
    (4, '/garden'), (5, '/'), (6, '/shop/a\/b/c'), (7, NULL), (NULL, '/shop/none');
SELECT 'below the root';
SELECT facet, documents FROM kormaglen_facet_counts('/', (SELECT kormaglen_facet_pairs(id, facet) FROM place));
SELECT 'below a facet';
SELECT facet, documents FROM kormaglen_facet_counts('/shop', (SELECT kormaglen_facet_pairs(id, facet) FROM place));
SELECT 'below that, in another order, and by encoded facets';
SELECT facet, documents FROM kormaglen_facet_counts('/shop/light', (SELECT kormaglen_facet_pairs(id, facet) FROM (SELECT * FROM place ORDER BY id DESC)));
SELECT facet, documents FROM kormaglen_facet_counts(kormaglen_facet('/shop/light'), (SELECT kormaglen_facet_pairs(id, kormaglen_facet(facet)) FROM place));
SELECT 'no children';
SELECT count(*) FROM kormaglen_facet_counts('/garden', (SELECT kormaglen_facet_pairs(id, facet) FROM place));
SELECT count(*) FROM kormaglen_facet_counts('/sho', (SELECT kormaglen_facet_pairs(id, facet) FROM place));
SELECT 'no rows, and NULL';
SELECT hex(kormaglen_facet_pairs(id, facet)), typeof(kormaglen_facet_pairs(id, facet)) FROM place WHERE id > 6;
SELECT count(*) FROM kormaglen_facet_counts('/', (SELECT kormaglen_facet_pairs(id, facet) FROM place WHERE id > 6));
SELECT count(*) FROM kormaglen_facet_counts(NULL, x''), kormaglen_facet_counts('/', NULL);
SELECT 'the bytes of pairs: the document, the length, the encoded facet';
SELECT hex(kormaglen_facet_pairs(id, facet)) FROM (SELECT 258 AS id, '/a' AS facet UNION ALL SELECT -1, '/b/c');
SELECT 'the two ends of 64 bits are two documents';
SELECT facet, documents FROM kormaglen_facet_counts('/', (SELECT kormaglen_facet_pairs(id, '/a') FROM (SELECT -9223372036854775808 AS id UNION ALL SELECT 9223372036854775807)));
SELECT 'in groups';
SELECT id > 3 AS late, (SELECT group_concat(facet || '=' || documents) FROM kormaglen_facet_counts('/', pairs))
FROM (SELECT id, kormaglen_facet_pairs(id, facet) AS pairs FROM place WHERE id > 0 GROUP BY id > 3);
SELECT 'columns that are arguments';
SELECT facet, documents, kormaglen_parent, length(kormaglen_pairs) FROM kormaglen_facet_counts WHERE kormaglen_parent = '/' AND kormaglen_pairs = (SELECT kormaglen_facet_pairs(1, '/a'));
