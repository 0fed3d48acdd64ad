SELECT DISTINCT u.k, b.k AS j FROM t AS a, u, t AS b ORDER BY u.k, j
