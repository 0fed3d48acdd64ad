SELECT COUNT(*) AS a, COUNT(w) AS b, SUM(k) AS c, MIN(v) AS d, MAX(v) AS e, MIN(w) AS f, MAX(w) AS g FROM t
