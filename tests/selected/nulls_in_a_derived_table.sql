SELECT s.a, s.id, s.b, u.y FROM (SELECT NULL AS a, id, k, NULL AS b FROM t) AS s JOIN u ON s.k = u.k ORDER BY s.id, u.y
