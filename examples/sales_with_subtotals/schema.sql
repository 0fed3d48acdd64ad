CREATE TABLE sales (
    id BIGINT PRIMARY KEY,
    day TEXT NOT NULL,
    region TEXT,
    cents BIGINT NOT NULL
);
