SELECT p.y, q.w FROM (SELECT u.y, a.id FROM t AS a, u) AS p, (SELECT b.w, b.id, d.y FROM t AS b, u AS d WHERE b.id < 3) AS q WHERE p.id < 3 ORDER BY p.y, q.w, p.id, q.y
