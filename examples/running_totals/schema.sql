CREATE TABLE sales (
    id BIGINT PRIMARY KEY,
    day TEXT NOT NULL,
    region TEXT NOT NULL,
    cents BIGINT NOT NULL
);
