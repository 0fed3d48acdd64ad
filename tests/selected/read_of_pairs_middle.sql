SELECT u.x, u.y FROM t AS a, u, t AS b WHERE a.id < 3 AND b.id < 4 ORDER BY a.id, u.y, b.id
