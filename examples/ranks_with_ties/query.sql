-- Places of a race, where runners of one time share a place; who did not arrive has no time and stands last.
SELECT r.name, t.name AS team, r.seconds,
       RANK() OVER by_time AS place,
       DENSE_RANK() OVER by_time AS times,
       RANK() OVER (PARTITION BY r.team ORDER BY r.seconds) AS in_team,
       r.seconds - FIRST_VALUE(r.seconds) OVER by_time AS behind
FROM runners AS r JOIN teams AS t ON r.team = t.id
WHERE t.name <> 'guests'
WINDOW by_time AS (ORDER BY r.seconds)
ORDER BY place, r.name
