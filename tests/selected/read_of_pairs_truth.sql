SELECT a.k = b.k AND u.y > 1 AS p, a.w IS NULL OR NOT b.w IS NULL AS q FROM t AS a, u, t AS b WHERE a.id < 3 ORDER BY a.id, u.y, b.id
