SELECT a.k + b.k AS s, a.id - u.y AS d FROM t AS a, t AS b, u WHERE a.id < 4 AND b.id > 5 ORDER BY a.id, b.id, u.y
