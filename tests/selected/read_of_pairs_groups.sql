SELECT u.y, COUNT(*) AS c, MAX(a.w) AS m, SUM(b.id) AS s FROM t AS a, u, t AS b GROUP BY u.y ORDER BY u.y
