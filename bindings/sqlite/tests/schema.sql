-- The schema of the tests. Field 5 is not indexed.
CREATE TABLE schema(json TEXT);
INSERT INTO schema VALUES ('[
{"name":"name","type":"text","options":{"indexing":{"record":"basic"},"stored":true}},
{"name":"price","type":"u64","options":{"indexed":true,"stored":true}},
{"name":"kind","type":"facet","options":{"stored":true}},
{"name":"added","type":"date","options":{"indexed":true,"fieldnorms":true,"stored":true}},
{"name":"more","type":"json_object","options":{"indexing":{"record":"basic"},"stored":true,"fast":false}},
{"name":"note","type":"text","options":{"stored":true}}]');
