SELECT NULL AS a, u.y, t.w FROM t, u WHERE t.id < 4 ORDER BY t.id, u.y
