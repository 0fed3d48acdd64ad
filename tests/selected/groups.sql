SELECT k, COUNT(*) AS a, COUNT(v) AS b, MIN(v) AS c, MAX(v) AS d, MIN(w) AS e, MAX(w) AS f FROM t GROUP BY k ORDER BY k
