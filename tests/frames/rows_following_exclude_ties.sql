SELECT id,
       ROW_NUMBER() OVER u AS row_number, NTILE(2) OVER u AS ntile, LAG(v) OVER u AS lag, LEAD(v, 1, -9) OVER u AS lead,
       RANK() OVER w AS rank, DENSE_RANK() OVER w AS dense_rank,
       FIRST_VALUE(v) OVER w AS first_value, LAST_VALUE(v) OVER w AS last_value, NTH_VALUE(v, 2) OVER w AS nth_value,
       COUNT(*) OVER w AS count_all, COUNT(v) OVER w AS count, SUM(v) OVER w AS sum, MIN(v) OVER w AS min, MAX(v) OVER w AS max
FROM t
WINDOW u AS (PARTITION BY g ORDER BY v, id ROWS BETWEEN 1 FOLLOWING AND 3 FOLLOWING EXCLUDE TIES),
       w AS (PARTITION BY g ORDER BY v ROWS BETWEEN 1 FOLLOWING AND 3 FOLLOWING EXCLUDE TIES)
ORDER BY id
