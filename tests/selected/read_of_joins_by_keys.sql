SELECT c.w, -a.k AS n FROM t AS a JOIN u ON a.k = u.k JOIN t AS b ON b.k = u.k JOIN t AS c ON c.id = b.id ORDER BY a.id, u.y, b.id
