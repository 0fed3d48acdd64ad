SELECT a.v FROM t AS a, u, t AS b ORDER BY a.id, u.y, b.id
