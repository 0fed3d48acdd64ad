SELECT COUNT(*) AS a, COUNT(w) AS b, SUM(k) AS c, MIN(v) AS d, MAX(w) AS e FROM t WHERE id > 100
