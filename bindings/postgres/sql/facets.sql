-- How many documents have each child of a facet.
\pset format unaligned
\pset tuples_only
\pset null NULL
CREATE TABLE sorted(id bigint, kind text);
INSERT INTO sorted VALUES (1, '/shop/light/desk'), (1, '/shop/light/led'), (2, '/shop/light'), (3, '/shop/lights'), (3, '/shop/light/led'), (4, '/garden/chair'), (-5, '/shop/a\/b/c'), (6, '/shop'), (7, '/');
SELECT kormaglen_facet_counts('/shop', id, kormaglen_facet(kind)) FROM sorted;
SELECT kormaglen_facet_counts('/', id, kormaglen_facet(kind)) FROM sorted;
SELECT kormaglen_facet_counts('/shop/light', id, kormaglen_facet(kind)) FROM sorted;
SELECT kormaglen_facet_counts('/nowhere', id, kormaglen_facet(kind)) FROM sorted;
SELECT key, value FROM json_each_text((SELECT kormaglen_facet_counts('/shop', id, kormaglen_facet(kind)) FROM sorted));
-- by groups; no rows, and NULL
SELECT id % 2 = 0, kormaglen_facet_counts('/shop', id, kormaglen_facet(kind)) FROM sorted GROUP BY 1 ORDER BY 1;
SELECT kormaglen_facet_counts('/shop', id, kormaglen_facet(kind)) FROM sorted WHERE false;
SELECT kormaglen_facet_counts('/shop', id, NULL), kormaglen_facet_counts(NULL, id, kormaglen_facet(kind)), kormaglen_facet_counts('/shop', nullif(id, 2), kormaglen_facet(kind)) FROM sorted;
SELECT kormaglen_facet_counts('/shop', id, kormaglen_facet(kind)) FILTER (WHERE id < 3), kormaglen_facet_counts('/shop', 0, kormaglen_facet(kind)) FROM sorted;
-- as a window
SELECT id, kormaglen_facet_counts('/shop', id, kormaglen_facet(kind)) OVER (ORDER BY kind) FROM sorted WHERE id < 3;
-- refused
SELECT refusal(statement) FROM unnest(ARRAY[
  $$SELECT kormaglen_facet_counts('shop', id, kormaglen_facet(kind)) FROM sorted$$,
  $$SELECT kormaglen_facet_counts(kind, id, kormaglen_facet(kind)) FROM sorted$$,
  $$SELECT kormaglen_facet_counts('/shop', id, '\xFF'::bytea) FROM sorted$$,
  $$SELECT kormaglen_facet_counts_end(NULL)$$,
  $$SELECT kormaglen_facet_counts_add(NULL, '/', 1, '\x')$$]) AS statement;
-- by workers, as by one process
CREATE TABLE many AS SELECT i AS id, kormaglen_facet('/shop/' || i % 7 || '/' || i % 3) AS kind FROM generate_series(1, 20000) AS i UNION ALL SELECT i, kormaglen_facet('/shop/' || i % 5) FROM generate_series(1, 20000) AS i;
ANALYZE many;
SET max_parallel_workers_per_gather = 0;
SELECT kormaglen_facet_counts('/shop', id, kind) FROM many;
SET max_parallel_workers_per_gather = 2;
SET parallel_setup_cost = 0;
SET parallel_tuple_cost = 0;
SET min_parallel_table_scan_size = 0;
EXPLAIN (COSTS OFF) SELECT kormaglen_facet_counts('/shop', id, kind) FROM many;
SELECT kormaglen_facet_counts('/shop', id, kind) FROM many;
SELECT 'what is expected', '{"/shop/0": ' || (SELECT count(*) FROM generate_series(1, 20000) AS i WHERE i % 7 = 0 OR i % 5 = 0) || ', "/shop/6": ' || (SELECT count(*) FROM generate_series(1, 20000) AS i WHERE i % 7 = 6) || '}';
