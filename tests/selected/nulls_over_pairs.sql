SELECT u.x, NULL AS a, t.id, NULL AS b, u.y FROM t JOIN u ON t.k = u.k ORDER BY t.id, u.y
