SELECT v, NULL AS a, v AS b, w FROM t ORDER BY id
