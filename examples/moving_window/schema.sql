CREATE TABLE readings (
    station TEXT,
    day BIGINT,
    tenths SMALLINT,
    PRIMARY KEY (station, day)
);
