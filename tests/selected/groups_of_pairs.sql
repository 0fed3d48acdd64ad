SELECT t.k, SUM(u.y) AS a, MIN(u.x) AS b, MAX(t.w) AS c, COUNT(u.x) AS d FROM t JOIN u ON t.k = u.k GROUP BY t.k ORDER BY t.k
