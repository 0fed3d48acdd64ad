SELECT 7 AS n FROM t, u WHERE t.id < 3
