SELECT b.w, b.v FROM t AS a, u, t AS b WHERE a.id = 2 ORDER BY u.y, b.id, a.id
