SELECT id, NULL AS a, 0 AS b, 'x' AS c FROM t ORDER BY id
