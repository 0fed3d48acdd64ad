SELECT CASE WHEN a.w = 'a' THEN u.x WHEN b.id > 4 THEN b.w ELSE a.w END AS c FROM t AS a, u, t AS b WHERE a.id < 5 ORDER BY a.id, u.y, b.id
